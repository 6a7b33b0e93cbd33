//! What the program `report` prints of the samples, against what this crate answers.
use morthwyga::{Action, Arch, Failure, Frame, Memory, PC_COLUMN, Raised, Record, Regs, Resumed, Row};
use std::fmt::Write;
use std::fs;
use std::path::Path;

const HEAD: usize = 400;
const FRAMES: &str = "\nframe    chunk   bytes  record start      pc                sp                row\n";
const PADS: &str = "\n  pad  frame  pc                sp, and the preserved registers\n";

struct Capture<'a> {
    arch: Arch,
    memory: Memory<'a>,
    /// With the pc of the throw.
    regs: Regs,
    interrupted: bool,
    exception: usize,
}

impl Capture<'_> {
    fn read(bytes: &[u8]) -> Capture<'_> {
        let word = |at: usize| u64::from_le_bytes(bytes[at..at + 8].try_into().unwrap()) as usize;
        let arch = if bytes[12] == 1 { Arch::Aarch64 } else { Arch::X86_64 };
        let (section, stack) = bytes[HEAD..].split_at(word(24));
        let mut regs = Regs { r: std::array::from_fn(|i| word(48 + 8 * i)) };
        regs.r[PC_COLUMN] = word(376);
        let memory = Memory { section, section_base: word(16), stack, stack_base: word(32) };
        Capture { arch, memory, regs, interrupted: word(384) == 1, exception: word(392) }
    }

    fn text(&self) -> String {
        let Memory { section, section_base, stack, stack_base } = self.memory;
        let name = if self.arch == Arch::Aarch64 { "aarch64" } else { "x86-64" };
        let how = if self.interrupted { "interrupted" } else { "thrown" };
        let mut text = format!("{name}, {how} at {:016x}, exception {:016x}\n", self.regs.pc(), self.exception);
        writeln!(text, "section at {section_base:016x}, {} bytes", section.len()).unwrap();
        writeln!(text, "stack at   {stack_base:016x}, {} bytes", stack.len()).unwrap();
        let (frames, spot) = self.frames();
        text + FRAMES + &frames + &self.throw(spot)
    }

    /// The frame table, and the first frame that is refused, for its step or its row.
    fn frames(&self) -> (String, Option<Frame>) {
        let (mut text, mut spot) = (String::new(), None);
        let mut frame = Frame { number: 0, interrupted: self.interrupted, regs: self.regs };
        loop {
            let (record, caller) = match self.memory.next_frame(self.arch, frame) {
                Ok(Some(next)) => next,
                Ok(None) => return (text + "walk: ended\n", spot),
                Err(failure) => return (text + &format!("walk: {}\n", refused_at(frame, failure)), spot.or(Some(frame))),
            };
            let (pc, sp) = (frame.regs.pc(), frame.regs.sp(self.arch).unwrap());
            let row = self.row(frame, record);
            spot = spot.or(row.starts_with("refused").then_some(frame));
            let (number, start, (chunk, size)) = (frame.number, record.start, self.chunk(record));
            writeln!(text, "{number:5}  {chunk:7} {size:7}  {start:016x}  {pc:016x}  {sp:016x}  {row}").unwrap();
            frame = caller;
        }
    }

    /// The offset and the size of the first chunk with a record that starts and ends so, going by the headers.
    fn chunk(&self, record: Record) -> (usize, usize) {
        let word = |at: usize| u32::from_le_bytes(self.memory.section[at..at + 4].try_into().unwrap());
        let spans = |at: usize| {
            let start = (self.memory.section_base + at).wrapping_add(word(at) as i32 as usize);
            (start, start.wrapping_add(word(at + 4) as usize)) == (record.start, record.end)
        };
        let mut at = 0;
        loop {
            let stride = if self.memory.section[at + 4] == 1 { 16 } else { 12 };
            let (count, size) = (word(at + 8) as usize, word(at + 12) as usize);
            if word(at) == 0 {
                at += 4;
            } else if (0..count).any(|i| spans(at + 16 + i * stride)) {
                return (at, size);
            } else {
                at += size;
            }
        }
    }

    fn row(&self, frame: Frame, record: Record) -> String {
        match self.found(frame, record) {
            Ok(None) => "none".to_string(),
            Ok(Some(Row { action: Action::Terminate, .. })) => "terminate".to_string(),
            Ok(Some(Row { action: Action::Cleanup, pad })) => format!("cleanup at {:016x}", record.start + pad),
            Ok(Some(Row { action: Action::Catch, pad })) => format!("catch at {:016x}", record.start + pad),
            Err(failure) => refused(failure),
        }
    }

    fn found(&self, frame: Frame, record: Record) -> Result<Option<Row>, Failure> {
        if frame.interrupted || record.handlers == 0 {
            return Ok(None);
        }
        let ret = (frame.regs.pc() - record.start) as u32;
        if record.version == 1 {
            return self.memory.handler(record.handlers, ret);
        }
        let (_, table) = self.memory.run(self.arch, record.program, record.limit, usize::MAX)?;
        self.memory.handler2(table, record.limit, ret)
    }

    fn throw(&self, spot: Option<Frame>) -> String {
        let (raised, mut unwinding) =
            self.memory.raise(self.arch, self.regs, self.regs.pc(), self.interrupted, self.exception);
        let mut text = match raised {
            Ok(Raised::Chosen { number, .. }) => format!("throw: frame {number} catches\n{PADS}"),
            Ok(Raised::Terminated) => return "throw: stopped by a terminate row; no landing pad runs\n".to_string(),
            Ok(Raised::EndOfStack) => return "throw: no frame catches; no landing pad runs\n".to_string(),
            Err(failure) => return format!("throw: {}; no landing pad runs\n", refused_at(spot.unwrap(), failure)),
        };
        for turn in 0.. {
            let (resumed, next) = self.memory.resume(self.arch, unwinding);
            let Ok(Resumed::Landing { number, regs }) = resumed else {
                assert_eq!(resumed, Ok(Resumed::Finished));
                break;
            };
            let sp = regs.sp(self.arch).unwrap();
            writeln!(text, "{turn:5}  {number:5}  {:016x}  {sp:016x}{}", regs.pc(), self.registers(regs)).unwrap();
            unwinding = next;
        }
        text + "landings: finished\n"
    }

    fn registers(&self, regs: Regs) -> String {
        let preserved: Vec<u16> = match self.arch {
            Arch::Aarch64 => (19..=30).chain(72..=79).collect(),
            Arch::X86_64 => vec![3, 6, 12, 13, 14, 15],
        };
        let cell = |reg: &u16| format!("{reg:5} {:016x}", regs.get(self.arch, *reg).unwrap());
        preserved.chunks(4).map(|four| format!("\n      {}", four.iter().map(cell).collect::<String>())).collect()
    }
}

fn refused(failure: Failure) -> String {
    format!("refused, {} {failure:?}", failure.number())
}

fn refused_at(frame: Frame, failure: Failure) -> String {
    format!("refused at frame {}, pc {:016x}, {} {failure:?}", frame.number, frame.regs.pc(), failure.number())
}

#[test]
fn the_texts_of_the_samples_are_what_the_library_answers() {
    let samples = Path::new(env!("CARGO_MANIFEST_DIR")).join("../samples");
    let mut count = 0;
    for path in fs::read_dir(samples).unwrap().map(|entry| entry.unwrap().path()) {
        let name = path.file_name().unwrap().to_str().unwrap();
        if name.ends_with(".capture") && !name.starts_with("input-") {
            let bytes = fs::read(&path).unwrap();
            assert_eq!(Capture::read(&bytes).text(), fs::read_to_string(path.with_extension("txt")).unwrap(), "{name}");
            count += 1;
        }
    }
    assert_eq!(count, 26);
}

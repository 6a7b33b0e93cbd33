//! The lent memory of a request.

/// The largest base that an opening accepts.
pub const TOP: u64 = 1 << 62;

/// A base and its bytes.
pub type Range<'a> = (u64, &'a [u8]);

pub const NONE: Range = (1, &[]);

/// The request's line: both ranges, then the operation with its arguments.
pub fn request(section: Range, stack: Range, operation: &str) -> String {
    assert!(opens(section, stack), "no accepted opening: {section:?} {stack:?}");
    any_request(section, stack, operation)
}

/// The same with ranges that may be refused.
pub fn any_request(section: Range, stack: Range, operation: &str) -> String {
    format!("{} {} {} {} {operation}", section.0, hex(section.1), stack.0, hex(stack.1))
}

/// Bases from 1 to 2^62, and no address in both.
fn opens(section: Range, stack: Range) -> bool {
    let good = |(base, _): Range| (1..=TOP).contains(&base);
    let end = |(base, bytes): Range| base + bytes.len() as u64;
    let empty = section.1.is_empty() || stack.1.is_empty();
    good(section) && good(stack) && (empty || end(section) <= stack.0 || end(stack) <= section.0)
}

fn hex(bytes: &[u8]) -> String {
    if bytes.is_empty() {
        return "-".to_string();
    }
    bytes.iter().map(|b| format!("{b:02x}")).collect()
}

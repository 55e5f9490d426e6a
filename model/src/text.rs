//! Numbers, timecodes, fields and heartbeat lines, with their refusal numbers.

/// The number of a refusal, 1 to 16.
pub type Refusal = u8;

/// "23:59:59:24 (frame 2,159,999)"
pub const LAST_FRAME: u32 = 2_159_999;

/// "at most 64 bytes without it"
pub const LINE_BYTES: usize = 64;

/// Table I of the paper, with Reveal as set or not.
#[derive(Clone, Copy, Debug, PartialEq, Eq)]
pub struct Heartbeat {
    pub bs: u16,
    pub priority: u8,
    pub tie_breaker: u16,
    pub reveal: bool,
}

/// "Fields are parted by one tab": every tab parts two fields.
pub fn fields(line: &[u8]) -> Vec<&[u8]> {
    line.split(|&byte| byte == b'\t').collect()
}

/// 2: "A number badly written or out of range."
pub fn number(field: &[u8], least: u32, most: u32) -> Result<u32, Refusal> {
    // "All numbers in lines are decimal"
    if field.is_empty() || !field.iter().all(u8::is_ascii_digit) {
        return Err(2);
    }
    // "no leading zero"; "zero is the one digit 0"
    if field[0] == b'0' && field.len() > 1 {
        return Err(2);
    }
    // "most significant digit first"
    let mut value: u64 = 0;
    for &digit in field {
        value = value.saturating_mul(10).saturating_add(u64::from(digit - b'0'));
    }
    if value < u64::from(least) || value > u64::from(most) {
        return Err(2);
    }
    Ok(value as u32)
}

/// "an identity 1..65,535"
pub fn identity(field: &[u8]) -> Result<u16, Refusal> {
    number(field, 1, 65_535).map(|value| value as u16)
}

/// "a priority 0..255"
pub fn priority(field: &[u8]) -> Result<u8, Refusal> {
    number(field, 0, 255).map(|value| value as u8)
}

/// 3: "A timecode badly written or outside the day."
pub fn read_timecode(field: &[u8]) -> Result<u32, Refusal> {
    // "HH:MM:SS:FF, two digits each"
    if field.len() != 11 {
        return Err(3);
    }
    for (place, &byte) in field.iter().enumerate() {
        let good = if place % 3 == 2 { byte == b':' } else { byte.is_ascii_digit() };
        if !good {
            return Err(3);
        }
    }
    let pair = |at: usize| u32::from(field[at] - b'0') * 10 + u32::from(field[at + 1] - b'0');
    let (hours, minutes, seconds, frames) = (pair(0), pair(3), pair(6), pair(9));
    // "A frame is one tick at 25 a second"
    if hours > 23 || minutes > 59 || seconds > 59 || frames > 24 {
        return Err(3);
    }
    Ok(((hours * 60 + minutes) * 60 + seconds) * 25 + frames)
}

/// A timecode of a frame outside the day gets 3.
pub fn write_timecode(frame: u32) -> Result<String, Refusal> {
    if frame > LAST_FRAME {
        return Err(3);
    }
    let seconds = frame / 25;
    Ok(format!(
        "{:02}:{:02}:{:02}:{:02}",
        seconds / 3600,
        seconds / 60 % 60,
        seconds % 60,
        frame % 25
    ))
}

/// "A heartbeat line: BS 0..65,535, Priority 0..255, TieBreaker 1..65,535, Reveal 0..255."
/// The slice is exactly one line with its line feed.
#[cfg_attr(not(test), allow(dead_code))]
pub fn read_heartbeat(line: &[u8]) -> Result<Heartbeat, Refusal> {
    // 1: "no line feed", "too long"; bytes after the line feed are no line form either
    let end = line.iter().position(|&byte| byte == b'\n').ok_or(1)?;
    if end + 1 != line.len() || end > LINE_BYTES {
        return Err(1);
    }
    let fields = fields(&line[..end]);
    // 1: "wrong count of fields"
    if fields.len() != 4 {
        return Err(1);
    }
    // "Fields are tested left to right"
    Ok(Heartbeat {
        bs: number(fields[0], 0, 65_535)? as u16,
        priority: priority(fields[1])?,
        tie_breaker: identity(fields[2])?,
        // "Any Reveal but 0 is set"
        reveal: number(fields[3], 0, 255)? != 0,
    })
}

/// "the writer writes 1"; TieBreaker 0 gets 2.
#[cfg_attr(not(test), allow(dead_code))]
pub fn write_heartbeat(heartbeat: &Heartbeat) -> Result<String, Refusal> {
    if heartbeat.tie_breaker == 0 {
        return Err(2);
    }
    Ok(format!(
        "{}\t{}\t{}\t{}\n",
        heartbeat.bs,
        heartbeat.priority,
        heartbeat.tie_breaker,
        u8::from(heartbeat.reveal)
    ))
}

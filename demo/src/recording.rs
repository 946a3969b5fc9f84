//! A recording as text: one line for each passage with its clock time, its bytes in hexadecimal, and a note on who
//! passed. Empty lines and lines that begin with # are skipped; the first line may be a # and a caption.

/// Six seconds, the longest passage of a gate.
pub const LONGEST: usize = 240;

/// What some editors write before the first line.
const BYTE_ORDER_MARK: char = '\u{feff}';

#[derive(Debug, PartialEq, Eq)]
pub struct Passage {
    pub clock: String,
    /// One byte every 25 ms; bit i is barrier i, 1 where it is broken.
    pub samples: Vec<u16>,
    pub note: String,
}

/// The passages; else which line is wrong, and why. A recording without a passage is wrong where one is missing.
pub fn read(text: &str) -> Result<Vec<Passage>, String> {
    let mut passages = Vec::new();
    for (number, line) in (1..).zip(text.lines()) {
        if !line.is_empty() && !line.starts_with('#') {
            passages.push(passage(line).map_err(|why| format!("line {number}: {why}"))?);
        }
    }
    if passages.is_empty() {
        return Err(format!("line {}: a passage is wanted", text.lines().count() + 1));
    }
    Ok(passages)
}

pub fn caption(text: &str) -> &str {
    text.lines()
        .next()
        .and_then(|line| line.strip_prefix("# "))
        .unwrap_or("")
}

pub fn write(passages: &[Passage]) -> String {
    passages.iter().map(line).collect()
}

fn passage(line: &str) -> Result<Passage, String> {
    if line.starts_with(BYTE_ORDER_MARK) {
        return Err("a byte order mark, and a recording has none".to_string());
    }
    let mut fields = line.splitn(3, ' ');
    let (Some(clock), Some(bytes)) = (fields.next(), fields.next()) else {
        return Err("a clock time and bytes are wanted".to_string());
    };
    if !is_clock_time(clock) {
        return Err(format!("{clock:?} is no clock time"));
    }
    let note = fields.next().unwrap_or("unknown");
    if bytes.is_empty() || note.is_empty() || note.starts_with(' ') {
        return Err("a blank too many".to_string());
    }
    let samples = samples(bytes)?;
    if samples.len() > LONGEST {
        return Err(format!("{} bytes, and a passage has at most {LONGEST}", samples.len()));
    }
    Ok(Passage {
        clock: clock.to_string(),
        samples,
        note: note.to_string(),
    })
}

/// Whether this is a time of day, as 07:58:04.
fn is_clock_time(clock: &str) -> bool {
    let is_number = |part: &&str| part.len() == 2 && part.bytes().all(|digit| digit.is_ascii_digit());
    let parts: Vec<&str> = clock.split(':').filter(is_number).collect();
    let is_time = |[hours, minutes, seconds]: [&str; 3]| hours < "24" && minutes < "60" && seconds < "60";
    clock.len() == 8 && parts.try_into().is_ok_and(is_time)
}

fn samples(bytes: &str) -> Result<Vec<u16>, String> {
    let digit = |letter: char| letter.to_digit(16).ok_or(format!("{letter:?} is no hexadecimal digit"));
    let digits: Vec<u32> = bytes.chars().map(digit).collect::<Result<_, String>>()?;
    if digits.len() % 2 == 1 {
        return Err("half a byte at the end".to_string());
    }
    Ok(digits.chunks(2).map(|byte| (byte[0] * 16 + byte[1]) as u16).collect())
}

fn line(passage: &Passage) -> String {
    let bytes: String = passage.samples.iter().map(|sample| format!("{sample:02x}")).collect();
    format!("{} {bytes} {}\n", passage.clock, passage.note)
}

#[cfg(test)]
mod tests {
    use super::*;

    #[test]
    fn what_is_written_is_read() {
        let text = "07:58:04 0001ff two samples and more\n";
        assert_eq!(write(&read(text).unwrap()), text);
        assert_eq!(read(text).unwrap()[0].samples, [0, 1, 255]);
    }

    #[test]
    fn the_first_line_may_be_a_caption() {
        assert_eq!(caption("# Today\n# more\n"), "Today");
        assert_eq!(caption("07:58:04 00\n# Today\n"), "");
    }

    #[test]
    fn faults_name_their_line() {
        let long = format!("07:58:04 {}", "00".repeat(LONGEST + 1));
        let faults = [
            ("# note\n\n07:58:04", "line 3: a clock time and bytes are wanted"),
            ("", "line 1: a passage is wanted"),
            ("# note\n\n", "line 3: a passage is wanted"),
            (
                "\u{feff}07:58:04 00 x",
                "line 1: a byte order mark, and a recording has none",
            ),
            (
                "\u{feff}# note\n07:58:04 00 x",
                "line 1: a byte order mark, and a recording has none",
            ),
            ("hello 00 x", "line 1: \"hello\" is no clock time"),
            ("07:58:04 00\n24:00:00 00", "line 2: \"24:00:00\" is no clock time"),
            ("07:60:00 00", "line 1: \"07:60:00\" is no clock time"),
            ("7:58:04 00", "line 1: \"7:58:04\" is no clock time"),
            ("07:58:+4 00", "line 1: \"07:58:+4\" is no clock time"),
            (" 07:58:04 00", "line 1: \"\" is no clock time"),
            ("07:58:04\t00", "line 1: a clock time and bytes are wanted"),
            ("07:58:04  00 x", "line 1: a blank too many"),
            ("07:58:04 00  x", "line 1: a blank too many"),
            ("07:58:04 00 ", "line 1: a blank too many"),
            ("07:58:04 +1 x", "line 1: '+' is no hexadecimal digit"),
            ("07:58:04 0g x", "line 1: 'g' is no hexadecimal digit"),
            ("07:58:04 hello", "line 1: 'h' is no hexadecimal digit"),
            ("07:58:04 012 x", "line 1: half a byte at the end"),
            (&long, "line 1: 241 bytes, and a passage has at most 240"),
        ];
        for (text, why) in faults {
            assert_eq!(read(text).unwrap_err(), why, "{text:?}");
        }
    }

    #[test]
    fn lines_may_end_as_windows_ends_them() {
        assert_eq!(read("07:58:04 00ff x\r\n").unwrap()[0].note, "x");
    }
}

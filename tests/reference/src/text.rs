//! The files, circuit, schedule and listing: text to table and back, with refusals 1, 2, 3, 4, 5 and 11.

/// "at most 256 lines" after the header of a circuit.
pub const CIRCUIT_LINES: usize = 256;
/// "at most 1,792 lines" after the header of a schedule.
pub const SCHEDULE_LINES: usize = 1792;
/// Erase refuses "also the 257th line whose first field is a circuit word". In Job 2, "either way a 257th kept line is 3, as in erase".
pub const KEPT_LINES: usize = 256;
/// "A field that is no number gives 1, as does one over 11 bytes."
const FIELD_BYTES: usize = 11;
/// The longest lines are an `enc` and a `const` of 17 bytes, the longest header has 21.
pub const TEXT_BYTES: usize = 21 + 17 * SCHEDULE_LINES;

/// F is the rescale factor, W the waterline, L the top level. Document 02, Job 3: "The header gains a fourth number H, bits of size with the sign,
/// from 1 to 60; three numbers mean none".
#[derive(Clone, Copy, PartialEq, Eq, Debug)]
pub struct Header {
    pub factor: i32,
    pub waterline: i32,
    pub top_level: i32,
    pub headroom: Option<i32>,
}

impl Header {
    /// H, and 0 where there is none: the bits that each scale leaves free below the modulus, and the least best reserve that is enough.
    pub fn headroom_bits(&self) -> i32 {
        self.headroom.unwrap_or(0)
    }

    /// "Each scale must satisfy scale + H ≤ F·level"; `level` is the one that remains.
    pub fn has_room_for(&self, scale: i32, level: i32) -> bool {
        scale + self.headroom_bits() <= self.factor * level
    }
}

/// One line after the header; `a` and `b` are operands, "a value number counts the lines after the header from 0". `Downscale` is `ds A` and
/// stands in a listing alone; there the level of an `enc` is kept as written, counted up from 0.
#[derive(Clone, Copy, PartialEq, Eq, Debug)]
pub enum Line {
    In,
    Const { number: u32 },
    Neg { a: u16 },
    Rot { a: u16, by: i16 },
    Add { a: u16, b: u16 },
    Mul { a: u16, b: u16 },
    Out { a: u16 },
    Enc { a: u16, scale: u16, level: u8 },
    Rescale { a: u16, count: u8 },
    Modswitch { a: u16, count: u8 },
    Upscale { a: u16, bits: u16 },
    Downscale { a: u16 },
}

/// What an operand finds on the line that it names.
#[derive(Clone, Copy, PartialEq, Eq, Debug)]
pub enum ValueKind {
    Ciphertext,
    Constant,
    Encoded,
    /// An `out` line cannot be named.
    Unusable,
}

impl Line {
    pub fn kind(self) -> ValueKind {
        match self {
            Line::Const { .. } => ValueKind::Constant,
            Line::Enc { .. } => ValueKind::Encoded,
            Line::Out { .. } => ValueKind::Unusable,
            _ => ValueKind::Ciphertext,
        }
    }

    /// The line that an encode, rescale, modswitch, upscale or downscale line was made from; none for a line with a circuit word.
    pub fn struck_from(self) -> Option<u16> {
        match self {
            Line::Enc { a, .. } | Line::Rescale { a, .. } | Line::Modswitch { a, .. } => Some(a),
            Line::Upscale { a, .. } | Line::Downscale { a } => Some(a),
            _ => None,
        }
    }

    pub fn operands(self) -> [Option<u16>; 2] {
        match self {
            Line::In | Line::Const { .. } => [None; 2],
            Line::Add { a, b } | Line::Mul { a, b } => [Some(a), Some(b)],
            Line::Neg { a } | Line::Rot { a, .. } | Line::Out { a } => [Some(a), None],
            struck => [struck.struck_from(), None],
        }
    }

    /// The same line with other operands.
    pub fn with_operands(self, rename: impl Fn(u16) -> u16) -> Line {
        match self {
            Line::In | Line::Const { .. } => self,
            Line::Neg { a } => Line::Neg { a: rename(a) },
            Line::Rot { a, by } => Line::Rot { a: rename(a), by },
            Line::Add { a, b } => Line::Add { a: rename(a), b: rename(b) },
            Line::Mul { a, b } => Line::Mul { a: rename(a), b: rename(b) },
            Line::Out { a } => Line::Out { a: rename(a) },
            Line::Enc { a, scale, level } => Line::Enc { a: rename(a), scale, level },
            Line::Rescale { a, count } => Line::Rescale { a: rename(a), count },
            Line::Modswitch { a, count } => Line::Modswitch { a: rename(a), count },
            Line::Upscale { a, bits } => Line::Upscale { a: rename(a), bits },
            Line::Downscale { a } => Line::Downscale { a: rename(a) },
        }
    }
}

/// A file as a table: its header and its lines in order.
#[derive(Clone)]
pub struct File {
    pub header: Header,
    lines: [Line; SCHEDULE_LINES],
    count: usize,
}

impl File {
    pub fn empty(header: Header) -> File {
        File { header, lines: [Line::In; SCHEDULE_LINES], count: 0 }
    }

    /// "A call starts from a table of 1,792 line records, all free."
    pub fn free() -> File {
        File::empty(Header { factor: 0, waterline: 0, top_level: 0, headroom: None })
    }

    pub fn lines(&self) -> &[Line] {
        &self.lines[..self.count]
    }

    /// Adds a line and gives its value number. The caller sees to it that the table has room.
    pub fn push(&mut self, line: Line) -> u16 {
        let number = self.count;
        self.lines[number] = line;
        self.count += 1;
        number as u16
    }

    /// Keeps only the first `count` lines.
    pub fn cut(&mut self, count: usize) {
        self.count = self.count.min(count);
    }

    pub fn replace(&mut self, number: usize, line: Line) {
        assert!(number < self.count);
        self.lines[number] = line;
    }
}

/// A refusal: "its number and place". "A place counts all text lines from 1, so value n stands at place n + 2."
#[derive(Clone, Copy, PartialEq, Eq, Debug)]
pub struct Refusal {
    pub number: u32,
    pub place: u32,
}

impl Refusal {
    /// A refusal at the line of value `n`.
    pub fn at_value(number: u32, n: usize) -> Refusal {
        Refusal { number, place: n as u32 + 2 }
    }
}

/// What a file is read as. A schedule to erase or to turn into a listing, and a listing, have a limit on the lines with circuit words.
#[derive(Clone, Copy, PartialEq, Eq, Debug)]
pub enum Reading {
    Circuit,
    Schedule,
    ScheduleToErase,
    Listing,
}

impl Reading {
    fn header_word(self) -> &'static [u8] {
        match self {
            Reading::Circuit => b"circuit",
            Reading::Schedule | Reading::ScheduleToErase => b"schedule",
            Reading::Listing => b"rising",
        }
    }

    fn line_limit(self) -> usize {
        match self {
            Reading::Circuit => CIRCUIT_LINES,
            Reading::Schedule | Reading::ScheduleToErase | Reading::Listing => SCHEDULE_LINES,
        }
    }

    /// The kind that stands beside a ciphertext: a constant "(in a circuit) or encoded constant (in a schedule)".
    fn constant_kind(self) -> ValueKind {
        match self {
            Reading::Circuit => ValueKind::Constant,
            Reading::Schedule | Reading::ScheduleToErase | Reading::Listing => ValueKind::Encoded,
        }
    }

    fn has_word(self, word: Word) -> bool {
        match self {
            Reading::Circuit => word.is_circuit_word(),
            Reading::Schedule | Reading::ScheduleToErase => word != Word::Downscale,
            Reading::Listing => true,
        }
    }

    fn limits_kept(self) -> bool {
        matches!(self, Reading::ScheduleToErase | Reading::Listing)
    }
}

/// Reads a whole file into a table of its own.
pub fn file_of(bytes: &[u8], reading: Reading) -> Result<File, Refusal> {
    let mut file = File::free();
    read(bytes, reading, &mut file).map(|()| file)
}

/// Reads a whole file into a free table: "Files are read top to bottom ...; per line 3, 1, 2 or 11, 4, 5."
pub fn read(bytes: &[u8], reading: Reading, file: &mut File) -> Result<(), Refusal> {
    // The empty file has no header line: it is refused here as not closed.
    let (content, closed, mut rest) = cut_line(bytes);
    let header = if closed { read_header(content, reading) } else { Err(1) };
    file.header = header.map_err(|number| Refusal { number, place: 1 })?;
    let mut kept = 0;
    while !rest.is_empty() {
        let (content, closed, after) = cut_line(rest);
        let place = file.count;
        let refused = |number| Refusal::at_value(number, place);
        // 3 comes before the form: any byte past the last allowed line is a line too many.
        if file.count == reading.line_limit() {
            return Err(refused(3));
        }
        if reading.limits_kept() && kept == KEPT_LINES && begins_with_circuit_word(content) {
            return Err(refused(3));
        }
        if !closed {
            return Err(refused(1));
        }
        let line = read_line(content, reading, file).map_err(refused)?;
        if line.struck_from().is_none() {
            kept += 1;
        }
        file.push(line);
        rest = after;
    }
    Ok(())
}

/// The first line without its line feed, whether a line feed closes it, and the bytes after it.
fn cut_line(bytes: &[u8]) -> (&[u8], bool, &[u8]) {
    match bytes.iter().position(|&byte| byte == b'\n') {
        Some(end) => (&bytes[..end], true, &bytes[end + 1..]),
        None => (bytes, false, &[]),
    }
}

/// "fields parted by one tab": two tabs in a row part an empty field, which is of no form.
fn fields(content: &[u8]) -> impl Iterator<Item = &[u8]> {
    content.split(|&byte| byte == b'\t')
}

fn read_header(content: &[u8], reading: Reading) -> Result<Header, u32> {
    let mut fields = fields(content);
    if fields.next() != Some(reading.header_word()) {
        return Err(1);
    }
    let mut numbers = [0; 3];
    for slot in &mut numbers {
        *slot = fields.next().and_then(read_number).ok_or(1u32)?;
    }
    let headroom = match fields.next() {
        Some(field) => Some(read_number(field).ok_or(1u32)?),
        None => None,
    };
    if fields.next().is_some() {
        return Err(1);
    }
    // "all whole numbers from 1 to 60", and H too
    if numbers.iter().chain(&headroom).any(|number| !(1..=60).contains(number)) {
        return Err(2);
    }
    let [factor, waterline, top_level] = numbers.map(|number| number as i32);
    Ok(Header { factor, waterline, top_level, headroom: headroom.map(|number| number as i32) })
}

#[derive(Clone, Copy, PartialEq, Eq)]
enum Word {
    In,
    Const,
    Neg,
    Rot,
    Add,
    Mul,
    Out,
    Enc,
    Rescale,
    Modswitch,
    Upscale,
    Downscale,
}

impl Word {
    fn of(field: &[u8]) -> Option<Word> {
        Some(match field {
            b"in" => Word::In,
            b"const" => Word::Const,
            b"neg" => Word::Neg,
            b"rot" => Word::Rot,
            b"add" => Word::Add,
            b"mul" => Word::Mul,
            b"out" => Word::Out,
            b"enc" => Word::Enc,
            b"rs" => Word::Rescale,
            b"ms" => Word::Modswitch,
            b"us" => Word::Upscale,
            b"ds" => Word::Downscale,
            _ => return None,
        })
    }

    fn is_circuit_word(self) -> bool {
        !matches!(self, Word::Enc | Word::Rescale | Word::Modswitch | Word::Upscale | Word::Downscale)
    }

    /// What the numbers after the word are.
    fn numbers(self, reading: Reading) -> &'static [Number] {
        match self {
            Word::In => &[],
            Word::Const => &[Number::Constant],
            Word::Neg | Word::Out | Word::Downscale => &[Number::Operand],
            Word::Rot => &[Number::Operand, Number::Rotation],
            Word::Add | Word::Mul => &[Number::Operand, Number::Operand],
            Word::Enc if reading == Reading::Listing => &[Number::Operand, Number::Scale, Number::RisingLevel],
            Word::Enc => &[Number::Operand, Number::Scale, Number::Level],
            Word::Rescale | Word::Modswitch => &[Number::Operand, Number::Count],
            Word::Upscale => &[Number::Operand, Number::Scale],
        }
    }
}

/// What a number field stands for.
#[derive(Clone, Copy, PartialEq, Eq)]
enum Number {
    Operand,
    Constant,
    Rotation,
    /// S of `enc` and B of `us`.
    Scale,
    /// E of `enc`.
    Level,
    /// E of `enc` in a listing.
    RisingLevel,
    /// C of `rs` and `ms`.
    Count,
}

impl Number {
    /// "An operand number has no range of its own: too large is 4."
    fn in_range(self, value: i64, header: &Header) -> bool {
        match self {
            Number::Operand => true,
            // "A constant number runs from 0 to 4294967295", document 02, Job 1.
            Number::Constant => (0..=4_294_967_295).contains(&value),
            Number::Rotation => (-32_767..=32_767).contains(&value),
            Number::Scale => (1..=3600).contains(&value),
            Number::Level => (1..=i64::from(header.top_level)).contains(&value),
            // "the written level runs from 0 to L − 1", document 02, Job 2.
            Number::RisingLevel => (0..i64::from(header.top_level)).contains(&value),
            Number::Count => (1..=60).contains(&value),
        }
    }
}

/// "A minus stands only before a nonzero rotation."
fn read_field(number: Number, field: &[u8]) -> Option<i64> {
    match field.strip_prefix(b"-") {
        Some(digits) if number == Number::Rotation && field.len() <= FIELD_BYTES => {
            read_number(digits).filter(|&value| value != 0).map(|value| -value)
        }
        _ => read_number(field),
    }
}

/// "Numbers are decimal without leading zeros or plus". Eleven digits fit without wrap.
fn read_number(field: &[u8]) -> Option<i64> {
    let leading_zero = field.len() > 1 && field[0] == b'0';
    if field.is_empty() || field.len() > FIELD_BYTES || leading_zero {
        return None;
    }
    let mut value = 0i64;
    for &byte in field {
        if !byte.is_ascii_digit() {
            return None;
        }
        value = value * 10 + i64::from(byte - b'0');
    }
    Some(value)
}

fn begins_with_circuit_word(content: &[u8]) -> bool {
    fields(content).next().and_then(Word::of).is_some_and(Word::is_circuit_word)
}

/// A line of the form: its word and the numbers after it.
struct Record {
    word: Word,
    numbers: [i64; 3],
}

fn read_record(content: &[u8], reading: Reading) -> Option<Record> {
    let mut fields = fields(content);
    let word = Word::of(fields.next()?)?;
    if !reading.has_word(word) {
        return None;
    }
    let mut numbers = [0; 3];
    for (slot, &number) in numbers.iter_mut().zip(word.numbers(reading)) {
        *slot = read_field(number, fields.next()?)?;
    }
    match fields.next() {
        Some(_) => None,
        None => Some(Record { word, numbers }),
    }
}

/// In a line all form comes first, then all ranges, then all 4, then all 5.
fn read_line(content: &[u8], reading: Reading, file: &File) -> Result<Line, u32> {
    let record = read_record(content, reading).ok_or(1u32)?;
    let numbers = record.word.numbers(reading);
    let given = || numbers.iter().zip(&record.numbers);
    if given().any(|(number, &value)| !number.in_range(value, &file.header)) {
        return Err(11);
    }
    if given().any(|(&number, &value)| number == Number::Operand && !usable(value, file)) {
        return Err(4);
    }
    if !kinds_fit(&record, reading, file) {
        return Err(5);
    }
    Ok(line_of(&record))
}

/// "A and B name earlier lines that are not `out`."
fn usable(operand: i64, file: &File) -> bool {
    operand < file.count as i64 && file.lines[operand as usize].kind() != ValueKind::Unusable
}

fn kinds_fit(record: &Record, reading: Reading, file: &File) -> bool {
    let kind = |field: usize| file.lines[record.numbers[field] as usize].kind();
    match record.word {
        Word::In | Word::Const => true,
        Word::Enc => kind(0) == ValueKind::Constant,
        Word::Neg | Word::Rot | Word::Out => kind(0) == ValueKind::Ciphertext,
        Word::Rescale | Word::Modswitch | Word::Upscale | Word::Downscale => kind(0) == ValueKind::Ciphertext,
        Word::Add | Word::Mul => match (kind(0), kind(1)) {
            (ValueKind::Ciphertext, ValueKind::Ciphertext) => true,
            (ValueKind::Ciphertext, other) | (other, ValueKind::Ciphertext) => other == reading.constant_kind(),
            _ => false,
        },
    }
}

/// The numbers are in their ranges here, so no cast loses a bit.
fn line_of(record: &Record) -> Line {
    let [first, second, third] = record.numbers;
    let a = first as u16;
    match record.word {
        Word::In => Line::In,
        Word::Const => Line::Const { number: first as u32 },
        Word::Neg => Line::Neg { a },
        Word::Rot => Line::Rot { a, by: second as i16 },
        Word::Add => Line::Add { a, b: second as u16 },
        Word::Mul => Line::Mul { a, b: second as u16 },
        Word::Out => Line::Out { a },
        Word::Enc => Line::Enc { a, scale: second as u16, level: third as u8 },
        Word::Rescale => Line::Rescale { a, count: second as u8 },
        Word::Modswitch => Line::Modswitch { a, count: second as u8 },
        Word::Upscale => Line::Upscale { a, bits: second as u16 },
        Word::Downscale => Line::Downscale { a },
    }
}

/// The text of a file, built up in a table of its own so that a refused call writes no byte of the lent buffer.
pub struct Text {
    bytes: [u8; TEXT_BYTES],
    length: usize,
}

impl Text {
    pub fn free() -> Text {
        Text { bytes: [0; TEXT_BYTES], length: 0 }
    }

    pub fn bytes(&self) -> &[u8] {
        &self.bytes[..self.length]
    }

    fn put(&mut self, byte: u8) {
        self.bytes[self.length] = byte;
        self.length += 1;
    }

    /// A tab and a number.
    fn put_number(&mut self, number: i64) {
        self.put(b'\t');
        if number < 0 {
            self.put(b'-');
        }
        let mut digits = [0; FIELD_BYTES];
        let mut count = 0;
        let mut left = number.unsigned_abs();
        loop {
            digits[count] = b'0' + (left % 10) as u8;
            count += 1;
            left /= 10;
            if left == 0 {
                break;
            }
        }
        // The lowest digit was found first.
        for &digit in digits[..count].iter().rev() {
            self.put(digit);
        }
    }
}

/// What the records of a file go to: a text, or a count of its bytes.
trait Records {
    fn put_record(&mut self, word: &[u8], numbers: &[i64]);

    fn put_line(&mut self, line: Line) {
        let n = i64::from;
        match line {
            Line::In => self.put_record(b"in", &[]),
            Line::Const { number } => self.put_record(b"const", &[i64::from(number)]),
            Line::Neg { a } => self.put_record(b"neg", &[n(a)]),
            Line::Rot { a, by } => self.put_record(b"rot", &[n(a), i64::from(by)]),
            Line::Add { a, b } => self.put_record(b"add", &[n(a), n(b)]),
            Line::Mul { a, b } => self.put_record(b"mul", &[n(a), n(b)]),
            Line::Out { a } => self.put_record(b"out", &[n(a)]),
            Line::Enc { a, scale, level } => self.put_record(b"enc", &[n(a), n(scale), i64::from(level)]),
            Line::Rescale { a, count } => self.put_record(b"rs", &[n(a), i64::from(count)]),
            Line::Modswitch { a, count } => self.put_record(b"ms", &[n(a), i64::from(count)]),
            Line::Upscale { a, bits } => self.put_record(b"us", &[n(a), n(bits)]),
            Line::Downscale { a } => self.put_record(b"ds", &[n(a)]),
        }
    }

    /// A file under the header word of `reading`. Without an H the header has three numbers.
    fn put_file(&mut self, file: &File, reading: Reading) {
        let Header { factor, waterline, top_level, headroom } = file.header;
        let numbers = [factor, waterline, top_level, headroom.unwrap_or(0)].map(i64::from);
        self.put_record(reading.header_word(), if headroom.is_some() { &numbers } else { &numbers[..3] });
        for &line in file.lines() {
            self.put_line(line);
        }
    }
}

impl Records for Text {
    fn put_record(&mut self, word: &[u8], numbers: &[i64]) {
        for &byte in word {
            self.put(byte);
        }
        for &number in numbers {
            self.put_number(number);
        }
        self.put(b'\n');
    }
}

/// The bytes of a text that is not written.
struct Length(usize);

impl Records for Length {
    fn put_record(&mut self, word: &[u8], numbers: &[i64]) {
        self.0 += word.len() + numbers.iter().map(|&number| number_bytes(number)).sum::<usize>() + 1;
    }
}

/// A tab, a minus where there is one, and the digits.
fn number_bytes(number: i64) -> usize {
    let digits = number.unsigned_abs().checked_ilog10().map_or(1, |power| power as usize + 1);
    1 + usize::from(number < 0) + digits
}

/// Writes a file under the header word of `reading`.
pub fn write(file: &File, reading: Reading, text: &mut Text) {
    text.put_file(file, reading);
}

/// How many bytes the text of a file has, without writing it.
pub fn length(file: &File, reading: Reading) -> usize {
    let mut length = Length(0);
    length.put_file(file, reading);
    length.0
}

/// The text of a file as bytes of its own.
pub fn bytes_of(file: &File, reading: Reading) -> Vec<u8> {
    let mut text = Text::free();
    write(file, reading, &mut text);
    text.bytes().to_vec()
}

#[cfg(test)]
mod tests {
    use super::*;

    /// Tests write spaces for tabs and `/` for line ends, as document 01 does.
    fn refusal(shown: &str, reading: Reading) -> Option<(u32, u32)> {
        let bytes = shown.replace(" / ", "\n").replace('/', "\n").replace(' ', "\t");
        file_of(bytes.as_bytes(), reading).err().map(|refusal| (refusal.number, refusal.place))
    }

    fn circuit(shown: &str) -> Option<(u32, u32)> {
        refusal(shown, Reading::Circuit)
    }

    fn schedule(shown: &str) -> Option<(u32, u32)> {
        refusal(shown, Reading::Schedule)
    }

    #[test]
    fn worked_texts() {
        assert_eq!(circuit("circuit 60 20 1/in/rot 0 -32768/"), Some((11, 3)));
        assert_eq!(circuit("circuit 60 20 1/const 007/"), Some((1, 2)));
        assert_eq!(circuit(""), Some((1, 1)));
        assert_eq!(circuit("circuit 60 20 1/"), None);
    }

    #[test]
    fn ends_and_empty_lines() {
        assert_eq!(circuit("circuit 60 20 1"), Some((1, 1)));
        assert_eq!(circuit("circuit 60 20 1/in"), Some((1, 2)));
        assert_eq!(circuit("circuit 60 20 1//in/"), Some((1, 2)));
        assert_eq!(circuit("schedule 60 20 1/"), Some((1, 1)));
        assert_eq!(schedule("circuit 60 20 1/"), Some((1, 1)));
        assert_eq!(circuit("circuit 60 20 61/"), Some((2, 1)));
        assert_eq!(circuit("circuit 0 20 x/"), Some((1, 1)));
    }

    /// "The header gains a fourth number H, .. from 1 to 60; three numbers mean none", in "all three headers". Form comes before range.
    #[test]
    fn the_fourth_number_of_a_header() {
        let all = |numbers: &str| {
            let readings = [Reading::Circuit, Reading::Schedule, Reading::ScheduleToErase, Reading::Listing];
            let found = readings.map(|reading| {
                let word = reading.header_word().escape_ascii();
                refusal(&format!("{word} {numbers}/in/"), reading)
            });
            assert_eq!(found, [found[0]; 4], "{numbers}");
            found[0]
        };
        for taken in ["60 20 2", "60 20 2 1", "60 20 2 2", "60 20 2 9", "60 20 2 10", "60 20 2 59", "60 20 2 60", "1 1 1 1"] {
            assert_eq!(all(taken), None, "{taken}");
        }
        for outside in ["0", "61", "65537", "4294967297", "99999999999"] {
            assert_eq!(all(&format!("60 20 2 {outside}")), Some((2, 1)), "{outside}");
        }
        for bad in ["", "01", "00", "-1", "-0", "+1", "x", "5x", "100000000000", "5 5", "5 ", " 5", "0 0", "61 x", "5 5 5"] {
            assert_eq!(all(&format!("60 20 2 {bad}")), Some((1, 1)), "{bad}");
            assert_eq!(all(&format!("61 20 2 {bad}")), Some((1, 1)), "{bad}");
        }
        assert_eq!([all("61 20 2 5"), all("60 0 2 5"), all("60 20 61 61")], [Some((2, 1)); 3]);
        assert_eq!(circuit("circuit 60 20 2 5"), Some((1, 1)));
    }

    /// "none is written so": a header without an H has three numbers.
    #[test]
    fn headers_are_written_as_they_were_read() {
        for numbers in ["60 20 2", "60 20 2 1", "60 20 2 5", "1 1 1 60"] {
            for reading in [Reading::Circuit, Reading::ScheduleToErase, Reading::Listing] {
                let word = reading.header_word().escape_ascii();
                let bytes = format!("{word} {numbers}/in/out 0/").replace('/', "\n").replace(' ', "\t");
                let Ok(file) = file_of(bytes.as_bytes(), reading) else { panic!("refused") };
                assert_eq!(file.header.headroom, numbers.split(' ').nth(3).and_then(|number| number.parse().ok()));
                assert_eq!(bytes_of(&file, reading), bytes.as_bytes());
                assert_eq!(length(&file, reading), bytes.len());
            }
        }
    }

    #[test]
    fn numbers() {
        for bad in ["-0", "-", "+1", "01", "", "1x", "123456789012", "-12345678901"] {
            assert_eq!(circuit(&format!("circuit 60 20 1/in/rot 0 {bad}/")), Some((1, 3)), "{bad}");
        }
        assert_eq!(circuit("circuit 60 20 1/in/rot 0 -1234567890/"), Some((11, 3)));
        assert_eq!(circuit("circuit 60 20 1/in/rot 0 99999999999/"), Some((11, 3)));
        assert_eq!(circuit("circuit 60 20 1/in/neg 99999999999/"), Some((4, 3)));
        assert_eq!(circuit("circuit 60 20 1/in/neg -1/"), Some((1, 3)));
        assert_eq!(circuit("circuit 60 20 1/const 4294967295/const 4294967296/"), Some((11, 3)));
    }

    /// "A constant number runs from 0 to 4294967295", in circuits and in schedules.
    #[test]
    fn constant_numbers() {
        let both = |line: &str| {
            let [one, other] = [circuit(&format!("circuit 60 20 1/{line}/")), schedule(&format!("schedule 60 20 1/{line}/"))];
            assert_eq!(one, other, "{line}");
            one
        };
        for taken in ["0", "65535", "65536", "65537", "2147483648", "4294967294", "4294967295"] {
            assert_eq!(both(&format!("const {taken}")), None, "{taken}");
        }
        for large in ["4294967296", "4294967297", "9999999999", "10000000000", "99999999999"] {
            assert_eq!(both(&format!("const {large}")), Some((11, 2)), "{large}");
        }
        for bad in ["100000000000", "04294967295", "-1", "+1", "4294967295x", "4294967296 1", "4294967296 x", "4294967296 "] {
            assert_eq!(both(&format!("const {bad}")), Some((1, 2)), "{bad}");
        }
    }

    /// No number is taken for what is left of it modulo two to the 16 or to the 32.
    #[test]
    fn numbers_that_would_wrap() {
        for number in ["65537", "4294967297"] {
            for header in ["N 20 1", "60 N 1", "60 20 N", "60 20 1 N"].map(|form| form.replace('N', number)) {
                assert_eq!(circuit(&format!("circuit {header}/")), Some((2, 1)), "{header}");
                assert_eq!(schedule(&format!("schedule {header}/")), Some((2, 1)), "{header}");
            }
            let forms = ["rot 0 N", "rot 0 -N", "enc 1 N 1", "enc 1 20 N", "us 0 N", "rs 0 N", "ms 0 N"];
            for line in forms.map(|form| form.replace('N', number)) {
                assert_eq!(schedule(&format!("schedule 60 20 1/in/const 1/{line}/")), Some((11, 4)), "{line}");
            }
        }
        assert_eq!(circuit("circuit 60 20 1/in/rot 0 4294967297/"), Some((11, 3)));
        for operand in ["65536", "4294967296"] {
            let circuit_forms = ["neg N", "rot N 1", "add N 0", "add 0 N", "mul N 0", "mul 0 N", "out N"];
            for line in circuit_forms.map(|form| form.replace('N', operand)) {
                assert_eq!(circuit(&format!("circuit 60 20 1/in/{line}/")), Some((4, 3)), "{line}");
                assert_eq!(schedule(&format!("schedule 60 20 1/in/{line}/")), Some((4, 3)), "{line}");
            }
            for line in ["us N 1", "rs N 1", "ms N 1", "enc N 20 1"].map(|form| form.replace('N', operand)) {
                let first = if line.starts_with("enc") { "const 1" } else { "in" };
                assert_eq!(schedule(&format!("schedule 60 20 1/{first}/{line}/")), Some((4, 3)), "{line}");
            }
        }
    }

    #[test]
    fn order_within_a_line() {
        let base = "circuit 60 20 1/in/const 1/out 0/";
        assert_eq!(circuit(&format!("{base}add 1 9/")), Some((4, 5)));
        assert_eq!(circuit(&format!("{base}rot 9 99999/")), Some((11, 5)));
        assert_eq!(circuit(&format!("{base}rot x 99999/")), Some((1, 5)));
        assert_eq!(circuit(&format!("{base}neg 2/")), Some((4, 5)));
        assert_eq!(circuit(&format!("{base}neg 3/")), Some((4, 5)));
        assert_eq!(circuit(&format!("{base}add 1 1/")), Some((5, 5)));
        assert_eq!(circuit(&format!("{base}enc 1 20 1/")), Some((1, 5)));
    }

    /// All form before all ranges, these before every 4, and that before every 5, with numbers past two to the 16 and to the 32.
    #[test]
    fn order_of_two_faults() {
        let base = "schedule 60 20 1/in/const 1/out 0/";
        let of_line = |line: &str| schedule(&format!("{base}{line}/"));
        for line in ["rot 4294967296 x", "enc 1 4294967297 x", "enc x 20 4294967297", "us x 65537", "us 0 99999999999 0"] {
            assert_eq!(of_line(line), Some((1, 5)), "{line}");
        }
        for line in
            ["rot 65536 65537", "us 4294967296 4294967297", "rs 2 65537", "rot 1 65537", "enc 0 4294967297 1", "ms 1 61"]
        {
            assert_eq!(of_line(line), Some((11, 5)), "{line}");
        }
        for line in ["add 1 65536", "mul 4294967296 1", "mul 1 2", "add 4294967297 1"] {
            assert_eq!(of_line(line), Some((4, 5)), "{line}");
        }
        for line in ["add 1 1", "neg 1", "enc 0 20 1", "us 1 1"] {
            assert_eq!(of_line(line), Some((5, 5)), "{line}");
        }
        // A fault further down does not hide one above it.
        assert_eq!(of_line("const 4294967296/x"), Some((11, 5)));
    }

    #[test]
    fn kinds_in_a_schedule() {
        let base = "schedule 60 20 2/in/const 1/enc 1 20 2/";
        assert_eq!(schedule(&format!("{base}mul 2 0/add 0 2/")), None);
        assert_eq!(schedule(&format!("{base}mul 0 1/")), Some((5, 5)));
        assert_eq!(schedule(&format!("{base}mul 2 2/")), Some((5, 5)));
        assert_eq!(schedule(&format!("{base}enc 2 20 2/")), Some((5, 5)));
        assert_eq!(schedule(&format!("{base}us 2 1/")), Some((5, 5)));
        assert_eq!(schedule(&format!("{base}enc 1 20 3/")), Some((11, 5)));
        assert_eq!(schedule(&format!("{base}us 0 3601/")), Some((11, 5)));
        assert_eq!(schedule(&format!("{base}rs 0 61/")), Some((11, 5)));
    }

    #[test]
    fn line_limits() {
        let ins = |count: usize| format!("circuit 60 20 1/{}", "in/".repeat(count));
        assert_eq!(circuit(&ins(256)), None);
        assert_eq!(circuit(&ins(257)), Some((3, 258)));
        assert_eq!(circuit(&format!("{}x", ins(256))), Some((3, 258)));
        let ups = |count: usize| format!("schedule 60 20 1/in/{}", "us 0 1/".repeat(count));
        assert_eq!(schedule(&ups(1791)), None);
        assert_eq!(schedule(&ups(1792)), Some((3, 1794)));
    }

    #[test]
    fn kept_limit_of_erase() {
        let erase = |shown: &str| refusal(shown, Reading::ScheduleToErase);
        let kept = format!("schedule 60 20 1/{}us 0 1/", "in/".repeat(256));
        assert_eq!(erase(&kept), None);
        for last in ["in/", "in", "in x/", "mul/"] {
            assert_eq!(erase(&format!("{kept}{last}")), Some((3, 259)), "{last}");
        }
        assert_eq!(erase(&format!("{kept}inx/")), Some((1, 259)));
        assert_eq!(schedule(&format!("{kept}in/")), None);
    }

    #[test]
    fn text_and_table_are_inverse() {
        for number in [0, 9, 10, 65_535, 65_536, 99_999, 100_000, 1_000_000_000, 4_294_967_295u32] {
            let shown = "schedule 60 20 2/in/const K/enc 1 3600 2/mul 0 2/us 3 20/rs 4 1/ms 5 60/rot 6 -32767/out 7/";
            let bytes = shown.replace('K', &number.to_string()).replace('/', "\n").replace(' ', "\t");
            let Ok(file) = file_of(bytes.as_bytes(), Reading::Schedule) else { panic!("refused") };
            assert!(file.lines().contains(&Line::Const { number }));
            assert_eq!(bytes_of(&file, Reading::Schedule), bytes.as_bytes());
            assert_eq!(length(&file, Reading::Schedule), bytes.len());
        }
    }

    /// A tab, a minus where there is one, and the digits.
    #[test]
    fn bytes_of_a_number() {
        for number in [0, 1, 9, 10, 99, 100, 999, 1000, 9999, 10_000, 32_767, 99_999, 4_294_967_295] {
            for number in [number, -number] {
                assert_eq!(number_bytes(number), format!("\t{number}").len(), "{number}");
            }
        }
    }

    #[test]
    fn the_longest_files() {
        let circuit = format!("circuit\t60\t60\t60\t60\n{}", "const\t4294967295\n".repeat(CIRCUIT_LINES));
        assert_eq!(circuit.len(), 4_372);
        let Ok(file) = file_of(circuit.as_bytes(), Reading::Circuit) else { panic!("refused") };
        assert_eq!(bytes_of(&file, Reading::Circuit), circuit.as_bytes());
        let schedule = format!("schedule\t60\t60\t60\t60\n{}", "const\t4294967295\n".repeat(SCHEDULE_LINES));
        assert_eq!(schedule.len(), TEXT_BYTES);
        let Ok(file) = file_of(schedule.as_bytes(), Reading::Schedule) else { panic!("refused") };
        assert_eq!(bytes_of(&file, Reading::Schedule), schedule.as_bytes());
    }
}

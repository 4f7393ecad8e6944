//! The text of a trace, read once into a list of events.
use crate::hex;

/// What is wrong with a line, in the order in which that counts.
#[derive(Clone, Copy, Debug, PartialEq, Eq, PartialOrd, Ord)]
pub enum Kind {
    Cut,
    Header,
    Word,
    Order,
    Fields,
    Number,
    Choice,
    Bytes,
}

/// Why a text isn't read.
#[derive(Debug)]
pub enum Refused {
    /// The first line with a fault.
    Fault(usize, Kind),
    /// A word of an extended trace that this program leaves out, a memory of several regions, or a hosted disk.
    NotServed,
}

/// What kind of trace the first line says.
#[derive(Clone, Copy, PartialEq, Eq)]
pub enum Form {
    Version1,
    Version2,
    Extended,
}

#[derive(Clone, Copy, PartialEq, Eq)]
pub enum Win {
    Block,
    Console,
}

#[derive(Clone, Copy)]
pub struct Access {
    pub win: Win,
    pub width: u8,
    pub offset: u16,
}

/// An event of 16 bytes: a byte field is named by its place in the trace's list of them.
#[derive(Clone, Copy)]
pub enum Event {
    Read { slot: u8, access: Access },
    Write { slot: u8, access: Access, value: u32 },
    MemRead { slot: u8, len: u32, addr: u64 },
    MemWrite { slot: u8, field: u32, addr: u64 },
    Input { slot: u8, field: u32 },
    Resize { slot: u8, cols: u16, rows: u16 },
}

impl Event {
    #[inline]
    pub fn slot(&self) -> u8 {
        use Event::*;
        match *self {
            Read { slot, .. } | Write { slot, .. } | MemRead { slot, .. } => slot,
            MemWrite { slot, .. } | Input { slot, .. } | Resize { slot, .. } => slot,
        }
    }
}

/// What a slot's line says.
pub struct Description {
    pub base: u64,
    pub len: u64,
    pub start: u64,
    pub count: u64,
    pub read_only: bool,
    pub cols: u16,
    pub rows: u16,
    pub identity: [u8; 20],
}

const IDENTITY_OF_VERSION_1: &[u8; 20] = b"vreplay-block\0\0\0\0\0\0\0";

pub struct Trace<'a> {
    pub form: Form,
    pub capacity: u32,
    pub slots: Vec<Description>,
    pub events: Vec<Event>,
    /// The digits of the byte fields.
    pub fields: Vec<&'a [u8]>,
}

pub fn read(text: &[u8]) -> Result<Trace<'_>, Refused> {
    let (line, rest) = cut(text, 1)?;
    let form = match line {
        b"vreplay 1" => Form::Version1,
        b"vreplay 2" => Form::Version2,
        b"kalyubos 1" => Form::Extended,
        _ => return Err(Refused::Fault(1, Kind::Header)),
    };
    let (line, mut rest) = cut(rest, 2)?;
    let capacity = capacity(line, form)?;
    let mut trace = Trace { form, capacity, slots: Vec::new(), events: Vec::new(), fields: Vec::new() };
    while !rest.is_empty() {
        let mut reader = Reader(rest);
        rest = match reader.event(&mut trace.fields) {
            Some(event) => {
                trace.events.push(event);
                reader.0
            }
            None => trace.other_line(rest)?,
        };
    }
    Ok(trace)
}

/// The line of this number, without its LF, and what follows it.
fn cut(text: &[u8], number: usize) -> Result<(&[u8], &[u8]), Refused> {
    let end = text.iter().position(|&c| c == b'\n').ok_or(Refused::Fault(number, Kind::Cut))?;
    Ok((&text[..end], &text[end + 1..]))
}

fn capacity(line: &[u8], form: Form) -> Result<u32, Refused> {
    let (word, fields) = split(line);
    match word {
        b"cache" => {
            judge(word, &fields, form).map_err(|kind| Refused::Fault(2, kind))?;
            Ok(number(fields[0], 32).expect("a judged number") as u32)
        }
        _ => Err(Refused::Fault(2, Kind::Word)),
    }
}

impl<'a> Trace<'a> {
    /// Takes in a line that is no event, a slot's if it has no fault, and gives what follows it.
    fn other_line(&mut self, text: &'a [u8]) -> Result<&'a [u8], Refused> {
        let line_number = 3 + self.slots.len() + self.events.len();
        let (line, rest) = cut(text, line_number)?;
        let (word, fields) = split(line);
        let judged = match word {
            b"st" | b"io" if self.form == Form::Extended => return Err(Refused::NotServed),
            b"cache" => Err(Kind::Word),
            b"slot" if !self.events.is_empty() => Err(Kind::Order),
            _ => judge(word, &fields, self.form),
        };
        judged.map_err(|kind| Refused::Fault(line_number, kind))?;
        self.slots.push(Description::of(&fields, self.form).ok_or(Refused::NotServed)?);
        Ok(rest)
    }
}

impl Description {
    /// What judged fields say, where the memory has one region and the disk is on the image.
    fn of(fields: &[&[u8]], form: Form) -> Option<Description> {
        let ((base, len), fields) = match fields {
            [regions, b"image", others @ ..] if form == Form::Extended => (region(regions)?, others),
            _ if form == Form::Extended => return None,
            [base, len, others @ ..] => ((number(base, 64)?, number(len, 64)?), others),
            _ => return None,
        };
        let number = |place: usize| number(fields[place], 64);
        let mut identity = *IDENTITY_OF_VERSION_1;
        if let Some(digits) = fields.get(5) {
            hex::decode(digits, &mut identity);
        }
        Some(Description {
            base,
            len,
            start: number(0)?,
            count: number(1)?,
            read_only: fields[2] == b"ro",
            cols: number(3)? as u16,
            rows: number(4)? as u16,
            identity,
        })
    }
}

/// What is left of the text. Its calls take the line's parts in turn.
struct Reader<'a>(&'a [u8]);

impl<'a> Reader<'a> {
    /// A whole line of an event, if that comes; its bytes go to the fields.
    #[inline]
    fn event(&mut self, fields: &mut Vec<&'a [u8]>) -> Option<Event> {
        let event = match self.0 {
            [b'r', b' ', rest @ ..] => Event::Read { slot: self.slot(rest)?, access: self.access()? },
            [b'w', b' ', rest @ ..] => {
                let (slot, access) = (self.slot(rest)?, self.access()?);
                self.skip(b' ')?;
                Event::Write { slot, access, value: self.fixed(2 * usize::from(access.width))? }
            }
            [b'm', b'r', b' ', rest @ ..] => {
                let (slot, addr) = (self.slot(rest)?, self.number(64)?);
                self.skip(b' ')?;
                Event::MemRead { slot, addr, len: self.number(32)? as u32 }
            }
            [b'm', b'w', b' ', rest @ ..] => {
                let (slot, addr) = (self.slot(rest)?, self.number(64)?);
                self.skip(b' ')?;
                Event::MemWrite { slot, addr, field: self.bytes(fields)? }
            }
            [b'i', b'n', b' ', rest @ ..] => Event::Input { slot: self.slot(rest)?, field: self.bytes(fields)? },
            [b's', b'z', b' ', rest @ ..] => {
                let (slot, cols) = (self.slot(rest)?, self.number(16)? as u16);
                self.skip(b' ')?;
                Event::Resize { slot, cols, rows: self.number(16)? as u16 }
            }
            _ => return None,
        };
        self.skip(b'\n')?;
        Some(event)
    }

    /// The slot behind a word.
    #[inline]
    fn slot(&mut self, fields: &'a [u8]) -> Option<u8> {
        if let [digit, b' ', rest @ ..] = fields {
            self.0 = rest;
            return hex::value(*digit);
        }
        self.0 = fields;
        let slot = self.number(8)? as u8;
        self.skip(b' ')?;
        Some(slot)
    }

    #[inline]
    fn skip(&mut self, c: u8) -> Option<()> {
        let (first, rest) = self.0.split_first()?;
        self.0 = rest;
        (*first == c).then_some(())
    }

    #[inline]
    fn number(&mut self, bits: u32) -> Option<u64> {
        let (mut value, mut count) = (0, 0);
        for digit in self.0.iter().map_while(|&c| hex::value(c)) {
            value = value << 4 | u64::from(digit);
            count += 1;
        }
        let is_spelled = count == 1 || (2..=16).contains(&count) && self.0[0] != b'0';
        self.0 = &self.0[count..];
        (is_spelled && value <= u64::MAX >> (64 - bits)).then_some(value)
    }

    #[inline]
    fn fixed(&mut self, count: usize) -> Option<u32> {
        let (digits, rest) = self.0.split_at_checked(count)?;
        self.0 = rest;
        hex::fixed(digits)
    }

    #[inline]
    fn access(&mut self) -> Option<Access> {
        let [win, b' ', a, b, c, b' ', width @ (b'1' | b'2' | b'4'), rest @ ..] = self.0 else {
            return None;
        };
        self.0 = rest;
        let win = match win {
            b'b' => Win::Block,
            b'c' => Win::Console,
            _ => return None,
        };
        Some(Access { win, width: width - b'0', offset: hex::fixed(&[*a, *b, *c])? as u16 })
    }

    /// The place of bytes among the fields.
    fn bytes(&mut self, fields: &mut Vec<&'a [u8]>) -> Option<u32> {
        let (digits, rest) = match self.0 {
            [b'-', rest @ ..] => (&[][..], rest),
            text => text.split_at(hex::run(text)),
        };
        let is_spelled = digits.len() % 2 == 0 && rest.len() < self.0.len();
        self.0 = rest;
        let place = u32::try_from(fields.len()).expect("fewer than 2^32 byte fields");
        fields.push(digits);
        is_spelled.then_some(place)
    }
}

/// How a field is spelled. A number says how many bits it may have.
#[derive(Clone, Copy)]
enum Field {
    Num(u32),
    Regions,
    Off,
    Val,
    Win,
    Wid,
    Mode,
    Disk,
    Bytes,
    Identity,
}

/// The first field of a line, and the others.
fn split(line: &[u8]) -> (&[u8], Vec<&[u8]>) {
    let mut fields = line.split(|&c| c == b' ');
    (fields.next().unwrap_or(&[]), fields.collect())
}

/// The fields that a word has behind it.
fn fields_of(word: &[u8], form: Form) -> Option<&'static [Field]> {
    use Field::*;
    Some(match word {
        b"cache" => &[Num(32)],
        b"slot" if form == Form::Version1 => &[Num(64), Num(64), Num(64), Num(64), Mode, Num(16), Num(16)],
        b"slot" if form == Form::Extended => &[Regions, Disk, Num(64), Num(64), Mode, Num(16), Num(16), Identity],
        b"slot" => &[Num(64), Num(64), Num(64), Num(64), Mode, Num(16), Num(16), Identity],
        b"r" => &[Num(8), Win, Off, Wid],
        b"w" => &[Num(8), Win, Off, Wid, Val],
        b"mr" => &[Num(8), Num(64), Num(32)],
        b"mw" => &[Num(8), Num(64), Bytes],
        b"in" => &[Num(8), Bytes],
        b"sz" => &[Num(8), Num(16), Num(16)],
        _ => return None,
    })
}

/// Whether the fields of a line are spelled as its word wants.
fn judge(word: &[u8], fields: &[&[u8]], form: Form) -> Result<(), Kind> {
    let wanted = fields_of(word, form).ok_or(Kind::Word)?;
    if fields.len() != wanted.len() {
        return Err(Kind::Fields);
    }
    let faults = wanted.iter().zip(fields).filter_map(|(wanted, field)| fault_of(*wanted, field, fields));
    faults.min().map_or(Ok(()), Err)
}

fn fault_of(wanted: Field, field: &[u8], fields: &[&[u8]]) -> Option<Kind> {
    let are_digits = |count: usize| field.len() == count && hex::run(field) == count;
    let width = |field: &[u8]| ["1", "2", "4"].iter().position(|width| width.as_bytes() == field).map(|log| 1usize << log);
    let (is_spelled, kind) = match wanted {
        Field::Num(bits) => (number(field, bits).is_some(), Kind::Number),
        Field::Regions => (are_regions(field), Kind::Number),
        Field::Off => (are_digits(3), Kind::Number),
        Field::Val => (width(fields[3]).is_none_or(|width| are_digits(2 * width)), Kind::Number),
        Field::Win => (matches!(field, b"b" | b"c"), Kind::Choice),
        Field::Wid => (width(field).is_some(), Kind::Choice),
        Field::Mode => (matches!(field, b"rw" | b"ro"), Kind::Choice),
        Field::Disk => (matches!(field, b"image" | b"host"), Kind::Choice),
        Field::Bytes => (field == b"-" || !field.is_empty() && field.len() % 2 == 0 && are_digits(field.len()), Kind::Bytes),
        Field::Identity => (are_digits(40), Kind::Bytes),
    };
    (!is_spelled).then_some(kind)
}

/// Whether a field spells one to eight regions.
fn are_regions(field: &[u8]) -> bool {
    let regions = field.split(|&c| c == b',');
    regions.clone().count() <= 8 && regions.map(region).all(|region| region.is_some())
}

/// The base and the length that a region's text spells.
fn region(text: &[u8]) -> Option<(u64, u64)> {
    let plus = text.iter().position(|&c| c == b'+')?;
    Some((number(&text[..plus], 64)?, number(&text[plus + 1..], 64)?))
}

/// The number that a whole field spells.
fn number(field: &[u8], bits: u32) -> Option<u64> {
    let mut reader = Reader(field);
    reader.number(bits).filter(|_| reader.0.is_empty())
}

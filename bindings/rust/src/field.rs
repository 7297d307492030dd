//! In which field each byte of a message stands.
use crate::kept_field::Field as FieldPart;
use crate::proved::ndef_fields::{self, fields_before};
use crate::proved::ndef_message::view;
use crate::proved::ndef_nest::Typed;
use crate::{DecodeError, Limits, Refusal};
use core::fmt;
use core::iter::FusedIterator;

#[cfg(feature = "alloc")]
use alloc::vec::Vec;

macro_rules! names {
    ($($number:literal $name:ident $text:literal,)*) => {
        /// The name of a field. `Display` writes it as the program `ndef-explain` does.
        #[derive(Clone, Copy, Debug, PartialEq, Eq, Hash, PartialOrd, Ord)]
        #[non_exhaustive]
        #[repr(u32)]
        pub enum FieldName {
            /// A name that only a newer library knows.
            Unlisted = 0,
            $(#[doc = concat!("`", $text, "`")] $name = $number,)*
        }

        impl FieldName {
            /// The names, in the order of their numbers.
            pub const ALL: &'static [FieldName] = &[$(FieldName::$name),*];

            /// The name with a number.
            pub const fn from_number(number: u32) -> Option<Self> {
                match number {
                    $($number => Some(Self::$name),)*
                    _ => None,
                }
            }

            /// The name as text.
            pub const fn text(self) -> &'static str {
                match self {
                    Self::Unlisted => "unlisted",
                    $(Self::$name => $text,)*
                }
            }
        }
    };
}

names! {
    1 Header "header",
    2 TypeLength "TYPE_LENGTH",
    3 PayloadLength "PAYLOAD_LENGTH",
    4 IdLength "ID_LENGTH",
    5 Type "TYPE",
    6 Id "ID",
    7 Payload "PAYLOAD",
    8 Status "status",
    9 Language "language code",
    10 Mark "byte order mark",
    11 Text "text",
    12 UriCode "identifier code",
    13 UriRest "URI",
    14 Action "action",
    15 Size "size",
    16 MediaType "media type",
    17 Version "version",
    18 Collision "random number",
    19 Power "carrier power state",
    20 ReferenceLength "carrier data reference length",
    21 Reference "carrier data reference",
    22 AuxiliaryCount "auxiliary data reference count",
    23 AuxiliaryLength "auxiliary data reference length",
    24 Auxiliary "auxiliary data reference",
    25 AfterAuxiliary "reserved",
    26 ErrorReason "error reason",
    27 ErrorData "error data",
    28 CarrierFormat "carrier type format",
    29 CarrierTypeLength "carrier type length",
    30 CarrierType "carrier type",
    31 CarrierData "carrier data",
}

/// The names of the proved text, in the order of their numbers.
#[cfg(any(feature = "alloc", test))]
const PROVED: [ndef_fields::FieldName; 31] = {
    use ndef_fields::FieldName::*;
    [
        Header,
        KindLength,
        PayloadLength,
        IdLength,
        Kind,
        Id,
        Payload,
        Status,
        Language,
        Mark,
        Text,
        UriCode,
        UriRest,
        Action,
        Size,
        MediaType,
        Version,
        Collision,
        Power,
        ReferenceLength,
        Reference,
        AuxiliaryCount,
        AuxiliaryLength,
        Auxiliary,
        AfterAuxiliary,
        ErrorReason,
        ErrorData,
        CarrierFormat,
        CarrierKindLength,
        CarrierKind,
        CarrierData,
    ]
};

impl FieldName {
    pub(crate) fn of(name: ndef_fields::FieldName) -> Self {
        Self::from_number(name as u32).unwrap_or(Self::Unlisted)
    }

    #[cfg(feature = "alloc")]
    pub(crate) fn proved(self) -> Option<ndef_fields::FieldName> {
        PROVED.get((self as usize).checked_sub(1)?).copied()
    }
}

impl fmt::Display for FieldName {
    fn fmt(&self, to: &mut fmt::Formatter<'_>) -> fmt::Result {
        to.pad(self.text())
    }
}

/// Bytes of a message that stand in one field.
#[derive(Clone, Copy, Debug, PartialEq, Eq, Hash)]
#[non_exhaustive]
pub struct Field<'a> {
    /// The offset of the first of them.
    pub at: usize,
    /// The bytes, at least one.
    pub bytes: &'a [u8],
    /// 0 in the message itself, 1 in a message within a payload.
    pub depth: u32,
    /// The name of the field.
    pub name: FieldName,
}

/// Where the fields are kept.
#[derive(Clone)]
enum Kept<'a> {
    Borrowed(&'a [FieldPart]),
    #[cfg(feature = "alloc")]
    Owned(Vec<FieldPart>),
}

/// The bytes of the message with which some begin, or those before the refused byte, and why that is refused.
fn front<'a>(bytes: &'a [u8], limits: &Limits) -> (&'a [u8], Option<Refusal>) {
    match view::<Typed>(bytes, limits.proved()) {
        Ok(message) => (&bytes[..message.taken() as usize], None),
        Err(refusal) => (&bytes[..refusal.at as usize], Some(Refusal::of(refusal))),
    }
}

/// The fields of the message with which some bytes begin, in order; of bytes that are refused, those before the refused
/// one. Payloads are validated, whatever the limits say. The message is looked at once.
///
/// ```
/// use simbegyor_ndef::{FieldName, Fields, Limits};
///
/// let fields = Fields::of(b"\xD1\x01\x08T\x02enHello, and more", &Limits::new());
/// assert_eq!(fields.len(), 7);
/// assert_eq!(fields.at(5).unwrap().name, FieldName::Language);
/// assert_eq!(fields.last().unwrap().bytes, b"Hello");
/// ```
#[derive(Clone)]
#[must_use = "an iterator does nothing unless it is used"]
pub struct Fields<'a> {
    bytes: &'a [u8],
    kept: Kept<'a>,
    refusal: Option<Refusal>,
    next: usize,
    end: usize,
}

impl<'a> Fields<'a> {
    /// The fields of the message with which these bytes begin.
    #[cfg(feature = "alloc")]
    pub fn of(bytes: &'a [u8], limits: &Limits) -> Self {
        let (front, refusal) = front(bytes, limits);
        let kept: Vec<_> = fields_before(front).map(FieldPart::of).collect();
        let end = kept.len();
        Self { bytes, kept: Kept::Owned(kept), refusal, next: 0, end }
    }

    /// The same, in a buffer that needs an element for each field.
    ///
    /// # Errors
    ///
    /// [`DecodeError::BufferTooSmall`] alone.
    pub fn of_in(bytes: &'a [u8], limits: &Limits, buffer: &'a mut [FieldPart]) -> Result<Self, DecodeError> {
        let (front, refusal) = front(bytes, limits);
        let mut count = 0;
        for field in fields_before(front) {
            if let Some(kept) = buffer.get_mut(count) {
                *kept = FieldPart::of(field);
            }
            count += 1;
        }
        if count > buffer.len() {
            return Err(DecodeError::BufferTooSmall(count));
        }
        Ok(Self { bytes, kept: Kept::Borrowed(&buffer[..count]), refusal, next: 0, end: count })
    }

    /// Where and why the bytes are refused; none if they begin with a message.
    #[must_use]
    pub fn refusal(&self) -> Option<Refusal> {
        self.refusal
    }

    /// The field to which the byte at an offset belongs; none after the message, or from a refused byte on.
    #[must_use]
    pub fn at(&self, place: usize) -> Option<Field<'a>> {
        let index = self.all().partition_point(|kept| kept.at <= place).checked_sub(1)?;
        self.field(index).filter(|field| place - field.at < field.bytes.len())
    }

    fn all(&self) -> &[FieldPart] {
        match &self.kept {
            Kept::Borrowed(kept) => kept,
            #[cfg(feature = "alloc")]
            Kept::Owned(kept) => kept,
        }
    }

    fn field(&self, index: usize) -> Option<Field<'a>> {
        let kept = self.all().get(index)?;
        Some(Field {
            at: kept.at,
            bytes: &self.bytes[kept.at..][..kept.length],
            depth: kept.depth,
            name: FieldName::from_number(kept.name).unwrap_or(FieldName::Unlisted),
        })
    }
}

impl<'a> Iterator for Fields<'a> {
    type Item = Field<'a>;

    fn next(&mut self) -> Option<Field<'a>> {
        if self.next == self.end {
            return None;
        }
        self.next += 1;
        self.field(self.next - 1)
    }

    fn size_hint(&self) -> (usize, Option<usize>) {
        let left = self.end - self.next;
        (left, Some(left))
    }
}

impl DoubleEndedIterator for Fields<'_> {
    fn next_back(&mut self) -> Option<Self::Item> {
        if self.next == self.end {
            return None;
        }
        self.end -= 1;
        self.field(self.end)
    }
}

impl ExactSizeIterator for Fields<'_> {}
impl FusedIterator for Fields<'_> {}

impl fmt::Debug for Fields<'_> {
    fn fmt(&self, to: &mut fmt::Formatter<'_>) -> fmt::Result {
        to.debug_list().entries(self.clone()).finish()
    }
}

#[cfg(test)]
mod tests {
    use super::*;
    use crate::Payloads;

    #[test]
    fn names_are_the_librarys() {
        assert_eq!(FieldName::ALL.len(), PROVED.len());
        for (name, proved) in FieldName::ALL.iter().zip(PROVED) {
            assert_eq!((proved.text(), FieldName::of(proved)), (name.text().as_bytes(), *name));
        }
    }

    /// A poster with a URI, as RTD Smart Poster 1.0 lays it out, and one whose URI has a reserved code.
    #[test]
    fn fields_of_a_poster() {
        let poster = b"\xD1\x02\x06Sp\xD1\x01\x02U\x00a";
        let expected: [(usize, u32, &str); 10] = [
            (0, 0, "header"),
            (1, 0, "TYPE_LENGTH"),
            (2, 0, "PAYLOAD_LENGTH"),
            (3, 0, "TYPE"),
            (5, 1, "header"),
            (6, 1, "TYPE_LENGTH"),
            (7, 1, "PAYLOAD_LENGTH"),
            (8, 1, "TYPE"),
            (9, 1, "identifier code"),
            (10, 1, "URI"),
        ];
        let mut buffer = [FieldPart::default(); 10];
        let fields = Fields::of_in(poster, &Limits::new().with_payloads(Payloads::Opaque), &mut buffer).unwrap();
        assert!(fields.clone().map(|field| (field.at, field.depth, field.name.text())).eq(expected));
        assert!(fields.clone().flat_map(|field| field.bytes).eq(poster));
        assert_eq!((fields.len(), fields.clone().skip(3).len(), fields.refusal()), (10, 7, None));
        assert_eq!(fields.at(4), fields.at(3));
        assert_eq!((fields.at(11), fields.at(usize::MAX)), (None, None));
        let needed = Fields::of_in(poster, &Limits::new(), &mut [FieldPart::default(); 9]).err();
        assert_eq!(needed, Some(DecodeError::BufferTooSmall(10)));
        assert_eq!(Fields::of_in(poster, &Limits::new(), &mut []).err(), needed);

        let refused = b"\xD1\x02\x06Sp\xD1\x01\x02U\xFFa";
        let mut buffer = [FieldPart::default(); 8];
        let fields = Fields::of_in(refused, &Limits::new(), &mut buffer).unwrap();
        assert!(fields.clone().map(|field| field.name.text()).eq(expected[..8].iter().map(|field| field.2)));
        assert_eq!((fields.at(8).unwrap().bytes, fields.at(9)), (&b"U"[..], None));
        assert_eq!(fields.refusal(), Some(Refusal { at: 9, reason: crate::Reason::UriCode }));

        let two = Limits::new().with_records(core::num::NonZeroU16::new(2).unwrap());
        let fields = Fields::of_in(b"\x90\0\0\x10\0\0\x50\0\0", &two, &mut buffer).unwrap();
        assert_eq!((fields.len(), fields.refusal().unwrap().at), (3, 3));
    }

    /// What `of` keeps in memory that it allocates is what `of_in` keeps in a buffer.
    #[cfg(feature = "alloc")]
    #[test]
    fn fields_in_memory() {
        for bytes in [&b"\xD1\x01\x08T\x02enHello, and more"[..], b"\xD1\x01\x08T\x02enH", b"\xD7", b""] {
            let mut buffer = [FieldPart::default(); 7];
            let kept = Fields::of_in(bytes, &Limits::new(), &mut buffer).unwrap();
            let fields = Fields::of(bytes, &Limits::new());
            assert_eq!((fields.refusal(), fields.len()), (kept.refusal(), kept.len()));
            assert!(fields.eq(kept));
        }
    }
}

//! A string of variable length as one of fixed length: IV.A.2.d, 'Datatype Message', classes 9 and 3.

/// The attribute of one string of variable length: its message in parts, and its text, which lies elsewhere.
#[derive(Debug, Clone, PartialEq, Eq)]
pub struct VariableText<'f> {
    /// The message up to its datatype.
    pub(crate) head: &'f [u8],
    pub(crate) datatype: &'f [u8],
    /// With what pads it.
    pub(crate) dataspace: &'f [u8],
    pub(crate) text: &'f [u8],
}

/// Where the message's head says how long its datatype is, in two bytes.
const DATATYPE_SIZE_AT: usize = 4;
/// Bytes of a datatype of class 3.
const DATATYPE_SIZE: u16 = 8;
/// Class 3, and version 1, since all versions of HDF5 read that one.
const STRING: u8 = 0x13;
/// The padding that has no byte of its own. A terminating zero would be one more byte than the text has, and of a string
/// that is padded with spaces a reader may take off those that the text ends with.
const NULL_PADDED: u8 = 1;

impl VariableText<'_> {
    /// The message of the same attribute with its text as a string of fixed length, which lies in it. It has the text's
    /// bytes, or one zero byte where there are none, since no type has a size of 0; the character set and all before and
    /// behind the type are as they were. None where the text has more bytes than a type can say.
    pub fn fixed(&self) -> Option<Vec<u8>> {
        let text = if self.text.is_empty() {
            &[0]
        } else {
            self.text
        };
        let size = u32::try_from(text.len()).ok()?;
        // In bits 8 to 11 there, in bits 4 to 7 here.
        let character_set = self.datatype.get(2)? & 0xF;
        let mut message = self.head.to_vec();
        let place = DATATYPE_SIZE_AT..DATATYPE_SIZE_AT + 2;
        let datatype_size = message.get_mut(place)?;
        datatype_size.copy_from_slice(&DATATYPE_SIZE.to_le_bytes());
        message.extend([STRING, character_set << 4 | NULL_PADDED, 0, 0]);
        message.extend(size.to_le_bytes());
        message.extend(self.dataspace);
        message.extend(text);
        Some(message)
    }
}

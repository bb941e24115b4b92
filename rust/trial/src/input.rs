//! One call of any kind, with all its arguments.

/// The kinds of calls.
#[derive(Clone, Copy, Debug, PartialEq, Eq, Hash)]
pub enum Kind {
    /// Reading a message to a record's image.
    Read = 0,
    /// Writing a record's image as a message.
    Write = 1,
    /// Listing rows.
    Rows = 2,
    /// Finding a common parameter's contents.
    FindCommon = 3,
    /// Finding a transfer parameter's contents.
    FindTransfer = 4,
    /// Classing a code value.
    Class = 5,
    /// Replacing a transfer parameter.
    Replace = 6,
    /// Appending a transfer parameter.
    Append = 7,
    /// Removing a transfer parameter.
    Remove = 8,
    /// Opening the charging information.
    Charging = 9,
    /// Opening the connection order.
    Order = 10,
    /// Reading a message by the mobile call profile.
    ProfileRead = 11,
    /// Writing a record's image by the mobile call profile.
    ProfileWrite = 12,
    /// Opening the added classes of a message in the mobile call profile.
    AddedClasses = 13,
    /// Opening the carriers.
    Carriers = 14,
    /// Opening the digits of a carrier's code.
    CarrierDigits = 15,
}

/// All kinds, each at the index of its own number.
pub const KINDS: [Kind; 16] = [
    Kind::Read,
    Kind::Write,
    Kind::Rows,
    Kind::FindCommon,
    Kind::FindTransfer,
    Kind::Class,
    Kind::Replace,
    Kind::Append,
    Kind::Remove,
    Kind::Charging,
    Kind::Order,
    Kind::ProfileRead,
    Kind::ProfileWrite,
    Kind::AddedClasses,
    Kind::Carriers,
    Kind::CarrierDigits,
];

/// One call with all its arguments; lent memory as it is before the call.
#[derive(Clone, Debug, PartialEq, Eq)]
pub enum Input {
    /// Read `message` into `image`.
    Read {
        /// The message.
        message: Vec<u8>,
        /// The lent image.
        image: Vec<u8>,
    },
    /// Write the record of `image` into `room`.
    Write {
        /// The record's image.
        image: Vec<u8>,
        /// The lent room.
        room: Vec<u8>,
    },
    /// List the rows of `message` into `table`.
    Rows {
        /// The message.
        message: Vec<u8>,
        /// The lent table.
        table: Vec<u8>,
    },
    /// Find the contents of the common parameter `header`.
    FindCommon {
        /// The message.
        message: Vec<u8>,
        /// The header.
        header: u8,
    },
    /// Find the contents of the transfer parameter `name`.
    FindTransfer {
        /// The message.
        message: Vec<u8>,
        /// The name.
        name: u8,
        /// Which of that name, counted from 0.
        which: usize,
    },
    /// Class `octet` under `header`.
    Class {
        /// The header.
        header: u8,
        /// The octet.
        octet: u8,
    },
    /// Replace by `new` in the message in the first `n` octets of `buffer`.
    Replace {
        /// The lent buffer.
        buffer: Vec<u8>,
        /// The message's length.
        n: u16,
        /// The new parameter.
        new: Vec<u8>,
        /// Which of its name is replaced, counted from 0.
        which: usize,
    },
    /// Append `new` in the message in the first `n` octets of `buffer`.
    Append {
        /// The lent buffer.
        buffer: Vec<u8>,
        /// The message's length.
        n: u16,
        /// The new parameter.
        new: Vec<u8>,
    },
    /// Remove `name` in the message in the first `n` octets of `buffer`.
    Remove {
        /// The lent buffer.
        buffer: Vec<u8>,
        /// The message's length.
        n: u16,
        /// The name.
        name: u8,
        /// Which of that name, counted from 0.
        which: usize,
    },
    /// Open the charging information of `message` into `out`.
    Charging {
        /// The message.
        message: Vec<u8>,
        /// The lent octets.
        out: Vec<u8>,
    },
    /// List the rows of the connection order of `message` into `table`.
    Order {
        /// The message.
        message: Vec<u8>,
        /// The lent table.
        table: Vec<u8>,
    },
    /// Read `message` into `image` by the mobile call profile.
    ProfileRead {
        /// The message.
        message: Vec<u8>,
        /// The lent image.
        image: Vec<u8>,
    },
    /// Write the record of `image` into `room` by the mobile call profile.
    ProfileWrite {
        /// The record's image.
        image: Vec<u8>,
        /// The lent room.
        room: Vec<u8>,
    },
    /// Open the added classes of `message` into `out` by the mobile call profile.
    AddedClasses {
        /// The message.
        message: Vec<u8>,
        /// The lent octets.
        out: Vec<u8>,
    },
    /// List the rows of the carriers of `message` into `table`.
    Carriers {
        /// The message.
        message: Vec<u8>,
        /// Which of the carriers, counted from 0.
        which: usize,
        /// The lent table.
        table: Vec<u8>,
    },
    /// Open the digits of a code in the carriers of `message` into `out`.
    CarrierDigits {
        /// The message.
        message: Vec<u8>,
        /// Which of the carriers, counted from 0.
        which: usize,
        /// Which of their rows, counted from 0.
        row: usize,
        /// The lent octets.
        out: Vec<u8>,
    },
}

impl Input {
    /// The kind of the call.
    pub fn kind(&self) -> Kind {
        match self {
            Input::Read { .. } => Kind::Read,
            Input::Write { .. } => Kind::Write,
            Input::Rows { .. } => Kind::Rows,
            Input::FindCommon { .. } => Kind::FindCommon,
            Input::FindTransfer { .. } => Kind::FindTransfer,
            Input::Class { .. } => Kind::Class,
            Input::Replace { .. } => Kind::Replace,
            Input::Append { .. } => Kind::Append,
            Input::Remove { .. } => Kind::Remove,
            Input::Charging { .. } => Kind::Charging,
            Input::Order { .. } => Kind::Order,
            Input::ProfileRead { .. } => Kind::ProfileRead,
            Input::ProfileWrite { .. } => Kind::ProfileWrite,
            Input::AddedClasses { .. } => Kind::AddedClasses,
            Input::Carriers { .. } => Kind::Carriers,
            Input::CarrierDigits { .. } => Kind::CarrierDigits,
        }
    }

    /// The message that the call is handed, if it is one that only reads it.
    pub fn message(&self) -> Option<&[u8]> {
        match self {
            Input::Read { message, .. }
            | Input::Rows { message, .. }
            | Input::FindCommon { message, .. }
            | Input::FindTransfer { message, .. }
            | Input::Charging { message, .. }
            | Input::Order { message, .. }
            | Input::ProfileRead { message, .. }
            | Input::AddedClasses { message, .. }
            | Input::Carriers { message, .. }
            | Input::CarrierDigits { message, .. } => Some(message),
            _ => None,
        }
    }

    /// The message that an edit is handed, if the buffer has so many octets.
    pub fn edited(&self) -> Option<&[u8]> {
        match self {
            Input::Replace { buffer, n, .. }
            | Input::Append { buffer, n, .. }
            | Input::Remove { buffer, n, .. } => buffer.get(..usize::from(*n)),
            _ => None,
        }
    }

    /// The memory that the call lends, as it is before the call.
    pub fn lent(&self) -> &[u8] {
        match self {
            Input::Read { image, .. } | Input::ProfileRead { image, .. } => image,
            Input::Write { room, .. } | Input::ProfileWrite { room, .. } => room,
            Input::Rows { table, .. }
            | Input::Order { table, .. }
            | Input::Carriers { table, .. } => table,
            Input::Replace { buffer, .. }
            | Input::Append { buffer, .. }
            | Input::Remove { buffer, .. } => buffer,
            Input::Charging { out, .. }
            | Input::AddedClasses { out, .. }
            | Input::CarrierDigits { out, .. } => out,
            Input::FindCommon { .. } | Input::FindTransfer { .. } | Input::Class { .. } => &[],
        }
    }
}

//! The connection order, opened.

use crate::Row;

/// What the connection order, E0, holds.
#[derive(Clone, Debug, Default, PartialEq, Eq, Hash)]
pub struct Order<'m> {
    /// The connection form (C0, C1).
    pub form: u8,
    /// The offset of the form in the message: where the contents of E0 start.
    pub offset: usize,
    /// The parameters, in the order of the message; each header at most once.
    pub parameters: Vec<OrderParameter<'m>>,
}

/// A parameter of a connection order.
#[derive(Clone, Copy, Debug, PartialEq, Eq, Hash)]
pub struct OrderParameter<'m> {
    /// The header.
    pub header: OrderHeader,
    /// The offset of the header in the message.
    pub offset: usize,
    /// All octets behind the header that are the parameter's own, a length or
    /// count octet among them, in the message itself.
    pub octets: &'m [u8],
}

/// The header (A0, A1) of a parameter of a connection order. These are headers of
/// their own: 41 to 43, 91 and CC to CF are not the transfer parameters of those
/// numbers here.
#[derive(Clone, Copy, Debug, PartialEq, Eq, PartialOrd, Ord, Hash)]
pub enum OrderHeader {
    /// 41: trunk in the exchange, one octet.
    Trunk = 0x41,
    /// 42: kind of release, one octet behind its length.
    Release = 0x42,
    /// 43: reason of the redirection, one octet with bit 7 set.
    RedirectReason = 0x43,
    /// 91: digits sent on the outgoing line, their count in the first octet, coded
    /// as under PLI 10.
    SentDigits = 0x91,
    /// 92: number to which the call is forwarded, coded as D7.
    ForwardNumber = 0x92,
    /// C9: ARE control on the calling side: a code, a repeat count, characters.
    CallingAre = 0xC9,
    /// CA: ARE control on the called side, the same.
    CalledAre = 0xCA,
    /// CB: guidance on the calling side, carried.
    CallingGuidance = 0xCB,
    /// CC: ARE logic control on the called side: a conversion kind, a repeat count,
    /// a key.
    CalledAreLogic = 0xCC,
    /// CD: ARE control when waiting times out, as on the calling side.
    TimeoutAre = 0xCD,
    /// CE: guidance on the called side, carried.
    CalledGuidance = 0xCE,
    /// CF: guidance when waiting times out, carried.
    TimeoutGuidance = 0xCF,
    /// D2: waiting time, three IA5 digits, in half seconds.
    WaitingTime = 0xD2,
}

impl OrderHeader {
    /// All headers, in the order of their octets.
    pub const ALL: [Self; 13] = [
        Self::Trunk,
        Self::Release,
        Self::RedirectReason,
        Self::SentDigits,
        Self::ForwardNumber,
        Self::CallingAre,
        Self::CalledAre,
        Self::CallingGuidance,
        Self::CalledAreLogic,
        Self::TimeoutAre,
        Self::CalledGuidance,
        Self::TimeoutGuidance,
        Self::WaitingTime,
    ];

    /// The header of this octet, if it is one.
    pub fn of(octet: u8) -> Option<Self> {
        Self::ALL.into_iter().find(|header| header.octet() == octet)
    }

    /// The header's octet.
    pub const fn octet(self) -> u8 {
        self as u8
    }

    /// Whether a length octet follows the header.
    const fn has_length(self) -> bool {
        !matches!(
            self,
            Self::Trunk | Self::RedirectReason | Self::SentDigits | Self::WaitingTime
        )
    }
}

impl<'m> OrderParameter<'m> {
    /// The octets behind the header, and behind the length octet where there is
    /// one; a count octet is the first of them.
    pub fn contents(&self) -> &'m [u8] {
        let skip = usize::from(self.header.has_length());
        self.octets.get(skip..).unwrap_or_default()
    }
}

impl<'m> Order<'m> {
    /// The parameter with this header, if there is one.
    pub fn parameter(&self, header: OrderHeader) -> Option<&OrderParameter<'m>> {
        self.parameters.iter().find(|p| p.header == header)
    }

    /// That of the rows that the static library gives: the form's, then one for
    /// each parameter, whose header is one of [`OrderHeader::ALL`].
    pub(crate) fn of(message: &'m [u8], mut rows: impl Iterator<Item = Row>) -> Self {
        let Some(form) = rows.next() else {
            return Order::default();
        };
        let parameter = |row: Row| {
            let start = row.offset + 1;
            Some(OrderParameter {
                header: OrderHeader::of(row.header)?,
                offset: row.offset,
                octets: message.get(start..start + row.len)?,
            })
        };
        Order {
            form: form.header,
            offset: form.offset,
            parameters: rows.filter_map(parameter).collect(),
        }
    }
}

#[cfg(test)]
mod tests {
    use super::*;

    const MESSAGE: [u8; 11] = [
        0xE0, 0x09, 0x28, 0x42, 0x01, 0x02, 0x91, 0x03, 0x21, 0x0A, 0x41,
    ];

    fn row(offset: usize, len: usize) -> Row {
        let header = MESSAGE[offset];
        Row {
            offset,
            header,
            len,
        }
    }

    #[test]
    fn headers_by_their_octets() {
        let known: Vec<OrderHeader> = (0..=255).filter_map(OrderHeader::of).collect();
        assert_eq!(known, OrderHeader::ALL);
    }

    #[test]
    fn form_and_parameters_of_rows() {
        let order = Order::of(&MESSAGE, [row(2, 0), row(3, 2), row(6, 3)].into_iter());
        assert_eq!((order.form, order.offset), (0x28, 2));
        assert_eq!(order.parameters.len(), 2);
        let release = order.parameter(OrderHeader::Release).unwrap();
        assert_eq!((release.offset, release.octets), (3, &MESSAGE[4..6]));
        assert_eq!(release.contents(), [0x02]);
        let digits = order.parameter(OrderHeader::SentDigits).unwrap();
        assert_eq!((digits.offset, digits.octets), (6, &MESSAGE[7..10]));
        assert_eq!(digits.contents(), digits.octets);
        assert_eq!(order.parameter(OrderHeader::Trunk), None);
    }

    #[test]
    fn rows_that_leave_the_message_are_no_parameters() {
        let order = Order::of(&MESSAGE, [row(2, 0), row(10, 1)].into_iter());
        assert_eq!(order.parameters, []);
        assert_eq!(Order::of(&[], [].into_iter()), Order::default());
    }
}

//! The numbers that define a CRC.

/// The generator x^5 + x^4 + x^2 + 1.
pub const FIVE: u64 = 53;

/// The generator x^16 + x^12 + x^5 + 1.
pub const CCITT: u64 = 0x11021;

/// The numbers that define a CRC. Any may stand here: the calls judge them.
///
/// ```
/// use rangqoda::{catalogue::CRC_16_XMODEM, Crc, CCITT};
///
/// assert_eq!(CRC_16_XMODEM, Crc { generator: 0x11021, init: 0, xorout: 0 });
/// assert_eq!(CRC_16_XMODEM, Crc::plain(CCITT));
/// ```
#[derive(Clone, Copy, Debug, PartialEq, Eq, Hash)]
pub struct Crc {
    /// The generator: 2^i stands for x^i. It has its top bit, which catalogues leave out: see [`Crc::of_width`].
    pub generator: u64,
    /// The initial value, added at a packet's first n bits. Accepted below 2^n.
    pub init: u64,
    /// The final value, added at its last n bits. Accepted below 2^n.
    pub xorout: u64,
}

impl Crc {
    /// The CRC of a polynomial as catalogues write it, without its top bit, which the width says. `None` where the width is outside 3
    /// to 16, where polynomial, `init` or `xorout` does not fit it, and where the polynomial is even: a [`Crc`] that this gives is
    /// refused neither by 1 nor by 11.
    ///
    /// Taken for a generator, such a polynomial is another one, of a smaller degree. It is accepted where it is odd, and then seals
    /// wrongly without a word.
    ///
    /// ```
    /// use rangqoda::{catalogue::CRC_16_IBM_3740, Crc};
    ///
    /// const CRC: Option<Crc> = Crc::of_width(16, 0x1021, 0xFFFF, 0);
    /// assert_eq!(CRC, Some(CRC_16_IBM_3740));
    ///
    /// // with the top bit, and with the lowest bit first
    /// assert_eq!(Crc::of_width(16, 0x11021, 0xFFFF, 0), None);
    /// assert_eq!(Crc::of_width(16, 0x8408, 0xFFFF, 0), None);
    /// ```
    #[must_use]
    pub const fn of_width(width: u32, polynomial: u64, init: u64, xorout: u64) -> Option<Crc> {
        if width < 3 || width > 16 || polynomial % 2 == 0 {
            return None;
        }
        if polynomial >> width != 0 || init >> width != 0 || xorout >> width != 0 {
            return None;
        }
        Some(Crc { generator: 1 << width | polynomial, init, xorout })
    }

    /// The CRC of a generator with initial and final values 0.
    #[must_use]
    pub const fn plain(generator: u64) -> Crc {
        Crc { generator, init: 0, xorout: 0 }
    }
}

//! CRCs that the catalogue of parametrised CRC algorithms names: degree 3 to 16, the highest bit first, nothing reflected. The
//! names are those of the `crc` crate; behind them stand the other names that the catalogue has for some of them.
//! [Which CRC this is](crate#which-crc-this-is) says how a packet is laid out for them.

use crate::Crc;

/// Defines the constants, and lists them all with the catalogues' names.
macro_rules! catalogue {
    ($($name:ident $called:literal $generator:literal $init:literal $xorout:literal)*) => {
        $(
            #[doc = concat!($called, ": generator ", stringify!($generator), ",")]
            #[doc = concat!("initial value ", stringify!($init), ", final value ", stringify!($xorout), ".")]
            pub const $name: Crc = Crc { generator: $generator, init: $init, xorout: $xorout };
        )*

        /// Every CRC of this module once, with its name in the catalogues.
        pub const ALL: &[(&str, Crc)] = &[$(($called, $name)),*];
    };
}

#[rustfmt::skip]
catalogue! {
    CRC_3_GSM "CRC-3/GSM" 0xB 0x0 0x7
    CRC_4_INTERLAKEN "CRC-4/INTERLAKEN" 0x13 0xF 0xF
    CRC_5_EPC_C1G2 "CRC-5/EPC-C1G2" 0x29 0x09 0x00
    CRC_6_CDMA2000_A "CRC-6/CDMA2000-A" 0x67 0x3F 0x00
    CRC_6_CDMA2000_B "CRC-6/CDMA2000-B" 0x47 0x3F 0x00
    CRC_6_GSM "CRC-6/GSM" 0x6F 0x00 0x3F
    CRC_7_MMC "CRC-7/MMC" 0x89 0x00 0x00
    CRC_7_UMTS "CRC-7/UMTS" 0xC5 0x00 0x00
    CRC_8_AUTOSAR "CRC-8/AUTOSAR" 0x12F 0xFF 0xFF
    CRC_8_CDMA2000 "CRC-8/CDMA2000" 0x19B 0xFF 0x00
    CRC_8_DVB_S2 "CRC-8/DVB-S2" 0x1D5 0x00 0x00
    CRC_8_GSM_A "CRC-8/GSM-A" 0x11D 0x00 0x00
    CRC_8_GSM_B "CRC-8/GSM-B" 0x149 0x00 0xFF
    CRC_8_I_432_1 "CRC-8/I-432-1" 0x107 0x00 0x55
    CRC_8_I_CODE "CRC-8/I-CODE" 0x11D 0xFD 0x00
    CRC_8_LTE "CRC-8/LTE" 0x19B 0x00 0x00
    CRC_8_MIFARE_MAD "CRC-8/MIFARE-MAD" 0x11D 0xC7 0x00
    CRC_8_NRSC_5 "CRC-8/NRSC-5" 0x131 0xFF 0x00
    CRC_8_OPENSAFETY "CRC-8/OPENSAFETY" 0x12F 0x00 0x00
    CRC_8_SAE_J1850 "CRC-8/SAE-J1850" 0x11D 0xFF 0xFF
    CRC_8_SMBUS "CRC-8/SMBUS" 0x107 0x00 0x00
    CRC_10_ATM "CRC-10/ATM" 0x633 0x000 0x000
    CRC_10_CDMA2000 "CRC-10/CDMA2000" 0x7D9 0x3FF 0x000
    CRC_10_GSM "CRC-10/GSM" 0x575 0x000 0x3FF
    CRC_11_FLEXRAY "CRC-11/FLEXRAY" 0xB85 0x01A 0x000
    CRC_11_UMTS "CRC-11/UMTS" 0xB07 0x000 0x000
    CRC_12_CDMA2000 "CRC-12/CDMA2000" 0x1F13 0xFFF 0x000
    CRC_12_DECT "CRC-12/DECT" 0x180F 0x000 0x000
    CRC_12_GSM "CRC-12/GSM" 0x1D31 0x000 0xFFF
    CRC_13_BBC "CRC-13/BBC" 0x3CF5 0x0000 0x0000
    CRC_14_GSM "CRC-14/GSM" 0x602D 0x0000 0x3FFF
    CRC_15_CAN "CRC-15/CAN" 0xC599 0x0000 0x0000
    CRC_15_MPT1327 "CRC-15/MPT1327" 0xE815 0x0000 0x0001
    CRC_16_CDMA2000 "CRC-16/CDMA2000" 0x1C867 0xFFFF 0x0000
    CRC_16_CMS "CRC-16/CMS" 0x18005 0xFFFF 0x0000
    CRC_16_DDS_110 "CRC-16/DDS-110" 0x18005 0x800D 0x0000
    CRC_16_DECT_R "CRC-16/DECT-R" 0x10589 0x0000 0x0001
    CRC_16_DECT_X "CRC-16/DECT-X" 0x10589 0x0000 0x0000
    CRC_16_EN_13757 "CRC-16/EN-13757" 0x13D65 0x0000 0xFFFF
    CRC_16_GENIBUS "CRC-16/GENIBUS" 0x11021 0xFFFF 0xFFFF
    CRC_16_GSM "CRC-16/GSM" 0x11021 0x0000 0xFFFF
    CRC_16_IBM_3740 "CRC-16/IBM-3740" 0x11021 0xFFFF 0x0000
    CRC_16_LJ1200 "CRC-16/LJ1200" 0x16F63 0x0000 0x0000
    CRC_16_OPENSAFETY_A "CRC-16/OPENSAFETY-A" 0x15935 0x0000 0x0000
    CRC_16_OPENSAFETY_B "CRC-16/OPENSAFETY-B" 0x1755B 0x0000 0x0000
    CRC_16_PROFIBUS "CRC-16/PROFIBUS" 0x11DCF 0xFFFF 0xFFFF
    CRC_16_SPI_FUJITSU "CRC-16/SPI-FUJITSU" 0x11021 0x1D0F 0x0000
    CRC_16_T10_DIF "CRC-16/T10-DIF" 0x18BB7 0x0000 0x0000
    CRC_16_TELEDISK "CRC-16/TELEDISK" 0x1A097 0x0000 0x0000
    CRC_16_UMTS "CRC-16/UMTS" 0x18005 0x0000 0x0000
    CRC_16_XMODEM "CRC-16/XMODEM" 0x11021 0x0000 0x0000
}

/// Defines further names of the constants, and lists them.
macro_rules! aliases {
    ($($name:ident $called:literal $of:ident)*) => {
        $(
            #[doc = concat!($called, ", another name of [`", stringify!($of), "`].")]
            pub const $name: Crc = $of;
        )*

        /// Every other name, as the catalogues write it, with its CRC.
        pub const ALIASES: &[(&str, Crc)] = &[$(($called, $name)),*];
    };
}

#[rustfmt::skip]
aliases! {
    CRC_5_EPC "CRC-5/EPC" CRC_5_EPC_C1G2
    CRC_7 "CRC-7" CRC_7_MMC
    CRC_8 "CRC-8" CRC_8_SMBUS
    CRC_8_ITU "CRC-8/ITU" CRC_8_I_432_1
    CRC_10 "CRC-10" CRC_10_ATM
    CRC_10_I_610 "CRC-10/I-610" CRC_10_ATM
    CRC_11 "CRC-11" CRC_11_FLEXRAY
    X_CRC_12 "X-CRC-12" CRC_12_DECT
    CRC_15 "CRC-15" CRC_15_CAN
    R_CRC_16 "R-CRC-16" CRC_16_DECT_R
    X_CRC_16 "X-CRC-16" CRC_16_DECT_X
    CRC_16_DARC "CRC-16/DARC" CRC_16_GENIBUS
    CRC_16_EPC "CRC-16/EPC" CRC_16_GENIBUS
    CRC_16_EPC_C1G2 "CRC-16/EPC-C1G2" CRC_16_GENIBUS
    CRC_16_I_CODE "CRC-16/I-CODE" CRC_16_GENIBUS
    CRC_16_AUTOSAR "CRC-16/AUTOSAR" CRC_16_IBM_3740
    CRC_16_CCITT_FALSE "CRC-16/CCITT-FALSE" CRC_16_IBM_3740
    CRC_16_IEC_61158_2 "CRC-16/IEC-61158-2" CRC_16_PROFIBUS
    CRC_16_AUG_CCITT "CRC-16/AUG-CCITT" CRC_16_SPI_FUJITSU
    CRC_16_BUYPASS "CRC-16/BUYPASS" CRC_16_UMTS
    CRC_16_VERIFONE "CRC-16/VERIFONE" CRC_16_UMTS
    CRC_16_ACORN "CRC-16/ACORN" CRC_16_XMODEM
    CRC_16_LTE "CRC-16/LTE" CRC_16_XMODEM
    CRC_16_V_41_MSB "CRC-16/V-41-MSB" CRC_16_XMODEM
    ZMODEM "ZMODEM" CRC_16_XMODEM
}

/// The CRC that a name stands for, of [`ALL`] or of [`ALIASES`], in capitals or not.
///
/// ```
/// use rangqoda::catalogue::{by_name, CRC_16_IBM_3740};
///
/// assert_eq!(by_name("CRC-16/IBM-3740"), Some(CRC_16_IBM_3740));
/// assert_eq!(by_name("crc-16/ccitt-false"), Some(CRC_16_IBM_3740));
///
/// // reflected, and so not here
/// assert_eq!(by_name("CRC-16/KERMIT"), None);
/// ```
#[must_use]
pub fn by_name(name: &str) -> Option<Crc> {
    ALL.iter().chain(ALIASES).find(|(called, _)| called.eq_ignore_ascii_case(name)).map(|&(_, crc)| crc)
}

//! Stands in for the metadata records: the fields that the original's searches, build and
//! read-back look at, and no others.

pub const GPIO_NONE: u8 = 255;

#[derive(Debug, Clone, Copy, PartialEq, Eq)]
pub enum BitModes {
    BitMode8,
    BitMode16,
}

#[derive(Debug, Clone, Copy, PartialEq, Eq)]
pub enum MaybeKnown<T> {
    Known(T),
    Unknown(u32),
}

/// What a GPIO's input is made to read, by the datasheet's INOVER field.
#[derive(Debug, Clone, Copy, PartialEq, Eq)]
pub enum GpioOverride {
    GpioOverNormal,
    GpioOverInvert,
    GpioOverLow,
    GpioOverHigh,
}

impl TryFrom<u8> for GpioOverride {
    type Error = ();

    fn try_from(field: u8) -> Result<Self, ()> {
        match field {
            0 => Ok(Self::GpioOverNormal),
            1 => Ok(Self::GpioOverInvert),
            2 => Ok(Self::GpioOverLow),
            3 => Ok(Self::GpioOverHigh),
            _ => Err(()),
        }
    }
}

#[derive(Debug, Clone, Copy, PartialEq, Eq)]
pub enum RomSlotType {
    RomSlotTypeSingleRom,
    RomSlotTypeSingleRam,
    RomSlotTypeBankedRom,
    RomSlotTypeMultiRom,
    RomSlotTypePluginSystem,
    RomSlotTypePluginUser,
    RomSlotTypePluginPio,
}

#[derive(Debug, Clone)]
pub enum OneromAlgAddrConfig {
    AlgAddr0 {
        gpio_base: u8,
        base_addr_pin: u8,
        num_addr_pins: u8,
    },
    Unknown {
        alg: u32,
    },
}

#[derive(Debug, Clone)]
pub enum OneromAlgDataConfig {
    AlgData0 { gpio_base: u8, base_data_pin: u8 },
    AlgData1 { gpio_base: u8, base_data_pin: u8 },
    Unknown { alg: u32 },
}

#[derive(Debug, Clone)]
pub enum OneromAlgDmaConfig {
    AlgDma0 { bit_mode: MaybeKnown<BitModes> },
    Unknown { alg: u32 },
}

#[derive(Debug, Clone)]
pub enum OneromAlgCsConfig {
    AlgCs0 {
        gpio_base: u8,
        first_rom_cs_base: u8,
    },
    AlgCs1 {},
    AlgCs2 {},
    Unknown {
        alg: u32,
    },
}

#[derive(Debug, Clone)]
pub struct OneromAlgOverrideConfig {
    pub params: Vec<u8>,
}

#[derive(Debug, Clone)]
pub struct OneromAlgConfig {
    pub alg_addr: OneromAlgAddrConfig,
    pub alg_data: OneromAlgDataConfig,
    pub alg_dma: OneromAlgDmaConfig,
    pub alg_cs: OneromAlgCsConfig,
    pub gpio_override_config: Option<OneromAlgOverrideConfig>,
}

#[derive(Debug, Clone)]
pub struct OneromHardwareInfo {
    pub gpio_x1: [u8; 2],
    pub gpio_x2: [u8; 2],
}

#[derive(Debug, Clone)]
pub struct OneromRomPinMap {
    pub addr: [u8; 32],
    pub data: [u8; 32],
}

#[derive(Debug, Clone)]
pub struct OneromRomInfo {
    pub pin_map: Option<OneromRomPinMap>,
    pub chip_size: u32,
}

#[derive(Debug, Clone)]
pub struct OneromRomSlot {
    pub size: u32,
    pub slot_type: MaybeKnown<RomSlotType>,
    pub alg: Option<OneromAlgConfig>,
    pub roms: Vec<OneromRomInfo>,
}

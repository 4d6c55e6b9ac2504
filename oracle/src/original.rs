//! The original behind the engine's calls: cases become its records, its answers plain numbers.

use std::cell::Cell;
use std::hint::black_box;
use std::panic::{AssertUnwindSafe, catch_unwind};

use onerom_config::chip::{ChipType, ControlLine};
use onerom_config::hw::Board;
use onerom_metadata::{
    BitModes, MaybeKnown, OneromAlgAddrConfig, OneromAlgConfig, OneromAlgCsConfig,
    OneromAlgDataConfig, OneromAlgDmaConfig, OneromAlgOverrideConfig, OneromHardwareInfo,
    OneromRomInfo, OneromRomPinMap, OneromRomSlot, RomSlotType,
};

use crate::case::MultiSelect;
use crate::description::{Description, MULTI, Multi, SINGLE, Settings};
use crate::engine::{Engine, Failure, Job, Lent, Recovered, Told};
use crate::image::{Chip, ChipSetType, CsConfig, CsLogic};
use crate::layout::{AddressLayout, Line, Qualifier, SelectLayout};
use crate::slot::{BANKED_ROM, MULTI_ROM, Rom, SINGLE_RAM, SINGLE_ROM, Slot};
use crate::stand_in::{ChipTypeSpec, Error, set_largest_table};
use crate::v2::addr_layout::{AddrLayout, LayoutError, derive_addr_layout};
use crate::v2::alg_preference::cs_alg_preference;
use crate::v2::cs_data_layout::{
    AlgCs2Config, CsDataLayout, SelectLine, SelectRole, derive_cs_data_layout,
};
use crate::v2::gpio_window::fits_pio_window;
use crate::v2::multi_cs_config::{ControlLineKind, MultiChipCsConfig, derive_multi_cs_config};
use crate::v2::rom_image::build_rom_image;
use crate::v2::slot_context::{SlotContext, socket_pin_offset};
use crate::v2::unscramble::{UnscrambleError, unscramble_slot};

pub struct Original;

const KINDS: [ControlLineKind; 6] = [
    ControlLineKind::Ce,
    ControlLineKind::Oe,
    ControlLineKind::Cs1,
    ControlLineKind::Cs2,
    ControlLineKind::Cs3,
    ControlLineKind::Cs4,
];

const ROLES: [SelectRole; 9] = [
    SelectRole::Ce,
    SelectRole::Oe,
    SelectRole::Cs1,
    SelectRole::Cs2,
    SelectRole::Cs3,
    SelectRole::Cs4,
    SelectRole::X1,
    SelectRole::X2,
    SelectRole::HalfSelect,
];

thread_local! {
    static IN_ORIGINAL: Cell<bool> = const { Cell::new(false) };
}

/// A panic of the original is an answer, its message is not; any other panic is a fault here and
/// keeps its message.
pub fn quiet_panics() {
    let usual = std::panic::take_hook();
    std::panic::set_hook(Box::new(move |why| {
        if !IN_ORIGINAL.get() {
            usual(why);
        }
    }));
}

/// Runs a call of the original; a panic is an answer of its own.
fn told<T>(call: impl FnOnce() -> Told<T>) -> Told<T> {
    IN_ORIGINAL.set(true);
    let answer = catch_unwind(AssertUnwindSafe(call)).unwrap_or(Err(Failure::Panic));
    IN_ORIGINAL.set(false);
    answer
}

/// Whether this build faults on overflow, as the original's answers need.
pub fn checks_overflow() -> bool {
    told(|| Ok(black_box(u8::MAX) + black_box(1))).is_err()
}

fn refusal(number: u64, place: u64) -> Failure {
    Failure::Refused { number, place }
}

fn place<T: PartialEq>(list: &[T], wanted: &T) -> u8 {
    let at = list.iter().position(|one| one == wanted);
    at.expect("the list names them all") as u8
}

fn logic(setting: u8) -> CsLogic {
    match setting {
        0 => CsLogic::ActiveLow,
        1 => CsLogic::ActiveHigh,
        _ => CsLogic::Ignore,
    }
}

fn cs_config(settings: &Settings) -> CsConfig {
    let [ce, oe, cs1, cs2, cs3, cs4] = settings.lines;
    let given = |setting: u8| (setting != 255).then(|| logic(setting));
    match settings.form {
        0 => CsConfig::ChipSelect {
            cs1: logic(cs1),
            cs2: given(cs2),
            cs3: given(cs3),
            cs4: given(cs4),
        },
        1 => CsConfig::CeOe,
        _ => CsConfig::CeOeExplicit {
            ce: logic(ce),
            oe: logic(oe),
        },
    }
}

fn chip_types(slot: &Description) -> Vec<ChipType> {
    let chip_type = |(n, chip): (usize, &crate::description::Chip)| {
        let lines: Vec<ControlLine> = chip
            .control
            .iter()
            .map(|&(kind, pin)| ControlLine::new(kind, pin))
            .collect();
        let qualifiers = if n == 0 { &slot.qualifiers[..] } else { &[] };
        let size = chip.size as usize;
        ChipType::new(
            &chip.address_pins,
            &chip.data_pins,
            &lines,
            qualifiers,
            size,
        )
    };
    slot.chips.iter().enumerate().map(chip_type).collect()
}

fn set_type(slot: &Description) -> ChipSetType {
    match slot.set_type {
        SINGLE => ChipSetType::Single,
        MULTI => ChipSetType::Multi,
        _ => ChipSetType::Banked,
    }
}

fn bit_mode(word_bytes: u8) -> BitModes {
    match word_bytes {
        1 => BitModes::BitMode8,
        _ => BitModes::BitMode16,
    }
}

fn multi_config(multi: &Multi) -> MultiChipCsConfig {
    let kinds = |list: &[u8]| list.iter().map(|&kind| KINDS[usize::from(kind)]).collect();
    MultiChipCsConfig {
        per_chip_select: KINDS[usize::from(multi.select)],
        commoned_lines: kinds(&multi.commoned),
        ignored_lines: kinds(&multi.ignored),
    }
}

fn context(slot: &Description) -> SlotContext {
    set_largest_table(slot.largest_table as usize);
    let mut candidates = [0; 84];
    candidates[..80].copy_from_slice(slot.socket.as_flattened());
    candidates[80..].copy_from_slice(slot.x.as_flattened());
    let multi = slot.multi.as_ref().filter(|_| slot.set_type == MULTI);
    SlotContext {
        board: Board::new(slot.board_pins, &candidates),
        set_type: set_type(slot),
        chip_types: chip_types(slot),
        cs_config: cs_config(&slot.settings),
        bit_mode: bit_mode(slot.word_bytes),
        pin_offset: slot.offset,
        force_16_bit: false,
        multi_cs_config: multi.map(multi_config),
    }
}

/// The address search of a description whose records are made once.
pub fn prepared_address_search(slot: &Description) -> crate::AddressSearch {
    let context = context(slot);
    let largest_table = slot.largest_table as usize;
    Box::new(move || {
        // Another description may have been asked about in between.
        set_largest_table(largest_table);
        told(|| derive_addr_layout(&context).map_err(layout_refusal)).map(from_original_address)
    })
}

/// The select search in the same way. It does not look at the largest table.
pub fn prepared_select_search(
    slot: &Description,
    address: Option<&AddressLayout>,
) -> crate::SelectSearch {
    let context = context(slot);
    let address = address.map(to_original_address);
    Box::new(move || {
        told(|| derive_cs_data_layout(&context, address.as_ref()).map_err(layout_refusal))
            .map(from_original_select)
    })
}

/// The build in the same way, with the chips' bytes made once.
pub fn prepared_build(slot: &Description, job: &Job) -> crate::Build {
    let largest_table = slot.largest_table as usize;
    let address = to_original_address(job.address);
    let select = to_original_select(job.select);
    let set_type = set_type(slot);
    let chips = chips(slot, job);
    let dma = OneromAlgDmaConfig::AlgDma0 {
        bit_mode: MaybeKnown::Known(bit_mode(slot.word_bytes)),
    };
    Box::new(move || {
        set_largest_table(largest_table);
        told(|| build_rom_image(&address, &select, set_type, &chips, &dma).map_err(build_refusal))
    })
}

/// The read-back in the same way.
pub fn prepared_read_back(slot: &Slot, data: &[u8]) -> crate::ReadBack {
    let hardware = OneromHardwareInfo {
        gpio_x1: slot.x[0],
        gpio_x2: slot.x[1],
    };
    let record = rom_slot(slot);
    let data = data.to_vec();
    Box::new(move || told(|| unscramble_slot(&hardware, &record, &data).map_err(read_back_refusal)))
}

fn layout_refusal(error: LayoutError) -> Failure {
    match error {
        LayoutError::NoSelectLine { .. } => refusal(2, 0),
        LayoutError::UnmappedPin { phys_pin, .. } => refusal(3, u64::from(phys_pin)),
        LayoutError::MissingXPin { x_pin, .. } => refusal(4, u64::from(x_pin)),
        LayoutError::MissingAddrPinGpios { .. } => refusal(5, 0),
        LayoutError::RomTooLargeNoCsConfig { .. } => refusal(6, 0),
        LayoutError::NonContiguousSelect { gpios, .. } => {
            refusal(7, gpios.iter().fold(0, |set, &gpio| set | 1 << gpio))
        }
        LayoutError::InteriorIgnoredLine { gpio, .. } => refusal(8, u64::from(gpio)),
        LayoutError::NoValidLayout { .. } => refusal(9, 0),
        LayoutError::IncompatiblePinCount { .. } => refusal(10, 0),
        LayoutError::RomTableTooLarge { .. } => refusal(11, 0),
    }
}

fn build_refusal(error: Error) -> Failure {
    match error {
        Error::RomTableTooLarge { .. } => refusal(11, 0),
        Error::InvalidConfig { .. } => refusal(12, 0),
        Error::MissingImageData { index, .. } => refusal(14, index as u64),
        Error::UnsupportedBoardConfig { .. } | Error::UnsupportedBoardChipType { .. } => {
            Failure::Panic
        }
    }
}

fn read_back_refusal(error: UnscrambleError) -> Failure {
    let word = |rom: usize, addr: usize| ((rom as u64) << 32) + addr as u64;
    match error {
        UnscrambleError::WrongSize { .. } => refusal(17, 0),
        UnscrambleError::UnknownSlotType(_) => refusal(18, 0),
        UnscrambleError::MissingLayout => refusal(19, 0),
        UnscrambleError::UnknownAlgorithm => refusal(20, 0),
        UnscrambleError::BadLayout => refusal(21, 0),
        UnscrambleError::XPin { pin } => refusal(22, u64::from(pin)),
        UnscrambleError::Inconsistent { rom, addr } => refusal(23, word(rom, addr)),
        UnscrambleError::Unserved { rom, addr } => refusal(24, word(rom, addr)),
    }
}

fn to_original_address(layout: &AddressLayout) -> AddrLayout {
    AddrLayout {
        gpio_base: layout.base,
        num_addr_pins: layout.pins,
        x1_gpio: layout.x1,
        x2_gpio: layout.x2,
        addr_pin_gpios: layout.lines.clone(),
        excess_addr_pin_gpios: layout.excess.clone(),
    }
}

fn from_original_address(layout: AddrLayout) -> AddressLayout {
    AddressLayout {
        base: layout.gpio_base,
        pins: layout.num_addr_pins,
        x1: layout.x1_gpio,
        x2: layout.x2_gpio,
        lines: layout.addr_pin_gpios,
        excess: layout.excess_addr_pin_gpios,
    }
}

fn to_original_select(layout: &SelectLayout) -> CsDataLayout {
    let line = |&(role, gpio): &Line| SelectLine {
        role: ROLES[usize::from(role)],
        gpio,
    };
    CsDataLayout {
        gpio_base: layout.base,
        base_data_pin: layout.base_data_pin,
        num_data_pins: layout.data.len() as u8,
        data_pin_gpios: layout.data.clone(),
        base_cs_pin: layout.base_cs_pin,
        num_cs_pins: layout.cs_pins,
        cs_ignore_index: layout.ignore,
        select_lines: layout.select.iter().map(line).collect(),
        commoned_lines: layout.commoned.iter().map(line).collect(),
        alg_cs2: layout.qualifier.map(|qualifier| AlgCs2Config {
            base_qualifier_pin: qualifier.base_pin,
            num_qualifier_pins: qualifier.pins,
            qualifier_inactive_pattern: qualifier.pattern,
        }),
    }
}

fn from_original_select(layout: CsDataLayout) -> SelectLayout {
    let line = |line: &SelectLine| (place(&ROLES, &line.role), line.gpio);
    assert_eq!(
        usize::from(layout.num_data_pins),
        layout.data_pin_gpios.len()
    );
    SelectLayout {
        base: layout.gpio_base,
        base_data_pin: layout.base_data_pin,
        base_cs_pin: layout.base_cs_pin,
        cs_pins: layout.num_cs_pins,
        ignore: layout.cs_ignore_index,
        qualifier: layout.alg_cs2.map(|qualifier| Qualifier {
            base_pin: qualifier.base_qualifier_pin,
            pins: qualifier.num_qualifier_pins,
            pattern: qualifier.qualifier_inactive_pattern,
        }),
        data: layout.data_pin_gpios,
        select: layout.select_lines.iter().map(line).collect(),
        commoned: layout.commoned_lines.iter().map(line).collect(),
    }
}

fn chips(slot: &Description, job: &Job) -> Vec<Chip> {
    let types = chip_types(slot).into_iter().zip(job.images).enumerate();
    types
        .map(|(index, (chip_type, image))| {
            let data = image.present.then(|| image.bytes());
            let spec = ChipTypeSpec(chip_type);
            Chip::new(
                index,
                String::new(),
                None,
                spec,
                cs_config(&slot.settings),
                data,
                None,
            )
        })
        .collect()
}

fn slot_type(kind: u8) -> MaybeKnown<RomSlotType> {
    MaybeKnown::Known(match kind {
        SINGLE_ROM => RomSlotType::RomSlotTypeSingleRom,
        SINGLE_RAM => RomSlotType::RomSlotTypeSingleRam,
        BANKED_ROM => RomSlotType::RomSlotTypeBankedRom,
        MULTI_ROM => RomSlotType::RomSlotTypeMultiRom,
        4 => RomSlotType::RomSlotTypePluginSystem,
        5 => RomSlotType::RomSlotTypePluginUser,
        6 => RomSlotType::RomSlotTypePluginPio,
        other => return MaybeKnown::Unknown(u32::from(other)),
    })
}

fn address_algorithm(slot: &Slot) -> OneromAlgAddrConfig {
    match slot.address_algorithm {
        0 => OneromAlgAddrConfig::AlgAddr0 {
            gpio_base: slot.address_base,
            base_addr_pin: slot.base_address_pin,
            num_addr_pins: slot.pins,
        },
        other => OneromAlgAddrConfig::Unknown {
            alg: u32::from(other),
        },
    }
}

fn data_algorithm(slot: &Slot) -> OneromAlgDataConfig {
    let (gpio_base, base_data_pin) = (slot.data_base, slot.base_data_pin);
    match slot.data_algorithm {
        0 => OneromAlgDataConfig::AlgData0 {
            gpio_base,
            base_data_pin,
        },
        1 => OneromAlgDataConfig::AlgData1 {
            gpio_base,
            base_data_pin,
        },
        other => OneromAlgDataConfig::Unknown {
            alg: u32::from(other),
        },
    }
}

fn dma_algorithm(slot: &Slot) -> OneromAlgDmaConfig {
    let bit_mode = match slot.bit_mode {
        0 => MaybeKnown::Known(BitModes::BitMode8),
        1 => MaybeKnown::Known(BitModes::BitMode16),
        other => MaybeKnown::Unknown(u32::from(other)),
    };
    match slot.dma_algorithm {
        0 => OneromAlgDmaConfig::AlgDma0 { bit_mode },
        other => OneromAlgDmaConfig::Unknown {
            alg: u32::from(other),
        },
    }
}

fn select_algorithm(slot: &Slot) -> OneromAlgCsConfig {
    match slot.select_algorithm {
        0 => OneromAlgCsConfig::AlgCs0 {
            gpio_base: slot.select_base,
            first_rom_cs_base: slot.first_select_pin,
        },
        1 => OneromAlgCsConfig::AlgCs1 {},
        2 => OneromAlgCsConfig::AlgCs2 {},
        other => OneromAlgCsConfig::Unknown {
            alg: u32::from(other),
        },
    }
}

fn rom_slot(slot: &Slot) -> OneromRomSlot {
    let overrides = OneromAlgOverrideConfig {
        params: slot.overrides.clone(),
    };
    let rom = |rom: &Rom| OneromRomInfo {
        pin_map: rom.has_map.then_some(OneromRomPinMap {
            addr: rom.address,
            data: rom.data,
        }),
        chip_size: rom.size,
    };
    OneromRomSlot {
        size: slot.size,
        slot_type: slot_type(slot.kind),
        alg: slot.has_layout.then(|| OneromAlgConfig {
            alg_addr: address_algorithm(slot),
            alg_data: data_algorithm(slot),
            alg_dma: dma_algorithm(slot),
            alg_cs: select_algorithm(slot),
            gpio_override_config: (!slot.overrides.is_empty()).then_some(overrides),
        }),
        roms: slot.roms.iter().map(rom).collect(),
    }
}

/// Marks that the original keeps to itself: one for each word of a slot that is no plugin.
fn marks(slot: &Slot, roms: &[Vec<u8>]) -> u64 {
    let plugin = (crate::slot::FIRST_PLUGIN..=crate::slot::LAST_PLUGIN).contains(&slot.kind);
    let word_bytes = usize::from(slot.bit_mode) + 1;
    let words = |rom: &Vec<u8>| (rom.len() / word_bytes) as u64;
    if plugin {
        0
    } else {
        roms.iter().map(words).sum()
    }
}

impl Engine for Original {
    fn window_fits(&self, base: u8, span: u8) -> Told<bool> {
        told(|| Ok(fits_pio_window(base, span)))
    }

    fn socket_offset(&self, chip_pins: u8, board_pins: u8) -> Told<i16> {
        told(|| socket_pin_offset(chip_pins, board_pins).ok_or(refusal(10, 0)))
    }

    fn preference(&self, qualifiers: bool, ignore: bool) -> Told<u8> {
        let config = AlgCs2Config {
            base_qualifier_pin: 0,
            num_qualifier_pins: 1,
            qualifier_inactive_pattern: 1,
        };
        let config = qualifiers.then_some(&config);
        told(|| Ok(cs_alg_preference(ignore.then_some(0), config) as u8))
    }

    fn multi_select(&self, case: &MultiSelect) -> Told<Multi> {
        let lines: Vec<ControlLine> = case
            .kinds
            .iter()
            .zip(1..)
            .map(|(&kind, pin)| ControlLine::new(kind, pin))
            .collect();
        let chip = ChipType::new(&[], &[], &lines, &[], 0);
        let (primary, secondary) = (cs_config(&case.primary), cs_config(&case.secondary));
        told(|| {
            let found = derive_multi_cs_config(chip, &primary, &secondary);
            let kinds = |list: &[ControlLineKind]| list.iter().map(|k| place(&KINDS, k)).collect();
            Ok(Multi {
                select: place(&KINDS, &found.per_chip_select),
                commoned: kinds(&found.commoned_lines),
                ignored: kinds(&found.ignored_lines),
            })
        })
    }

    fn address_search(&self, slot: &Description) -> Told<AddressLayout> {
        let context = context(slot);
        told(|| derive_addr_layout(&context).map_err(layout_refusal)).map(from_original_address)
    }

    fn select_search(
        &self,
        slot: &Description,
        address: Option<&AddressLayout>,
    ) -> Told<SelectLayout> {
        let context = context(slot);
        let address = address.map(to_original_address);
        told(|| derive_cs_data_layout(&context, address.as_ref()).map_err(layout_refusal))
            .map(from_original_select)
    }

    fn build(&self, slot: &Description, job: &Job) -> Told<Vec<u8>> {
        prepared_build(slot, job)()
    }

    fn read_back(&self, slot: &Slot, data: &[u8], _lent: Lent) -> Told<Recovered> {
        let roms = prepared_read_back(slot, data)()?;
        let marks = marks(slot, &roms);
        Ok(Recovered { roms, marks })
    }
}

//! The objects that a node's calls look at, in the original's dictionary.

use powerlink_rs::od::constants::{
    IDX_DIAG_ERR_STATISTICS_REC, IDX_DLL_CN_LOSS_OF_SOC_TOL_U32, IDX_NMT_CURR_NMT_STATE_U8,
    IDX_NMT_CYCLE_LEN_U32, IDX_NMT_ERROR_REGISTER_U8, SUBIDX_DIAG_ERR_STATS_EMCY_OVERFLOW,
    SUBIDX_DIAG_ERR_STATS_EMCY_WRITE, SUBIDX_DIAG_ERR_STATS_EN_EDGE,
    SUBIDX_DIAG_ERR_STATS_HIST_WRITE, SUBIDX_DIAG_ERR_STATS_STATIC_ERR_CHG,
};
use powerlink_rs::od::{Category, Object, ObjectDictionary, ObjectEntry, ObjectValue};
use rows::{CYCLE, TOLERANCE};

pub const ERROR_HISTORY: u16 = 0x1003;

/// The sub-indices of counters 1, 2, 3 and 5.
const COUNTERS: [u8; 4] = [
    SUBIDX_DIAG_ERR_STATS_HIST_WRITE,
    SUBIDX_DIAG_ERR_STATS_EMCY_WRITE,
    SUBIDX_DIAG_ERR_STATS_EMCY_OVERFLOW,
    SUBIDX_DIAG_ERR_STATS_STATIC_ERR_CHG,
];

/// The dictionary of a fresh node.
pub fn fresh() -> ObjectDictionary<'static> {
    let mut od = ObjectDictionary::new(None);
    let zeros = vec![ObjectValue::Unsigned32(0); SUBIDX_DIAG_ERR_STATS_EN_EDGE as usize];
    put(&mut od, IDX_DIAG_ERR_STATISTICS_REC, Object::Record(zeros));
    let variables = [
        (IDX_NMT_CURR_NMT_STATE_U8, ObjectValue::Unsigned8(0)),
        (IDX_NMT_ERROR_REGISTER_U8, ObjectValue::Unsigned8(0)),
        (IDX_NMT_CYCLE_LEN_U32, ObjectValue::Unsigned32(CYCLE)),
        (
            IDX_DLL_CN_LOSS_OF_SOC_TOL_U32,
            ObjectValue::Unsigned32(TOLERANCE),
        ),
    ];
    for (index, value) in variables {
        put(&mut od, index, Object::Variable(value));
    }
    // It has memory for all of its entries, so that no call waits for more.
    put(
        &mut od,
        ERROR_HISTORY,
        Object::Array(Vec::with_capacity(255)),
    );
    od
}

#[inline]
pub fn put(od: &mut ObjectDictionary, index: u16, object: Object) {
    let entry = ObjectEntry {
        object,
        name: "",
        category: Category::Optional,
        access: None,
        default_value: None,
        value_range: None,
        pdo_mapping: None,
    };
    od.insert(index, entry);
}

#[inline]
pub fn write(od: &mut ObjectDictionary, index: u16, sub_index: u8, value: ObjectValue) {
    let written = od.write(index, sub_index, value);
    debug_assert!(written.is_ok());
}

#[inline]
pub fn write_register(od: &mut ObjectDictionary, register: u8) {
    write(
        od,
        IDX_NMT_ERROR_REGISTER_U8,
        0,
        ObjectValue::Unsigned8(register),
    );
}

#[inline]
pub fn write_counters(od: &mut ObjectDictionary, counter: u32) {
    for sub_index in COUNTERS {
        let value = ObjectValue::Unsigned32(counter);
        write(od, IDX_DIAG_ERR_STATISTICS_REC, sub_index, value);
    }
}

#[inline]
pub fn write_cycle(od: &mut ObjectDictionary, cycle: u32, tolerance: u32) {
    write(od, IDX_NMT_CYCLE_LEN_U32, 0, ObjectValue::Unsigned32(cycle));
    let tolerance = ObjectValue::Unsigned32(tolerance);
    write(od, IDX_DLL_CN_LOSS_OF_SOC_TOL_U32, 0, tolerance);
}

pub fn register(od: &ObjectDictionary) -> u8 {
    od.read_u8(IDX_NMT_ERROR_REGISTER_U8, 0)
        .expect("the register exists")
}

/// What the tick takes for a missing value stands here too.
#[inline]
pub fn cycle(od: &ObjectDictionary) -> u32 {
    od.read_u32(IDX_NMT_CYCLE_LEN_U32, 0).unwrap_or(0)
}

#[inline]
pub fn tolerance(od: &ObjectDictionary) -> u32 {
    let tolerance = od.read_u32(IDX_DLL_CN_LOSS_OF_SOC_TOL_U32, 0);
    tolerance.unwrap_or(100_000)
}

pub fn counters(od: &ObjectDictionary) -> [u32; 4] {
    COUNTERS.map(|sub_index| {
        od.read_u32(IDX_DIAG_ERR_STATISTICS_REC, sub_index)
            .expect("the counters exist")
    })
}

/// How many entries the history has.
pub fn entries(od: &ObjectDictionary) -> usize {
    match od.read_object(ERROR_HISTORY) {
        Some(Object::Array(values)) => values.len(),
        _ => panic!("the history is an array"),
    }
}

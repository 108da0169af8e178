//! The dictionary values that a head keeps, as objects of the original dictionary. The types of the
//! objects are those that the tick reads and writes.

use crate::script::{Load, Start};
use powerlink_rs::od::constants::{
    IDX_DIAG_ERR_STATISTICS_REC, IDX_DLL_CN_LOSS_OF_SOC_TOL_U32, IDX_NMT_CURR_NMT_STATE_U8,
    IDX_NMT_CYCLE_LEN_U32, IDX_NMT_ERROR_REGISTER_U8, SUBIDX_DIAG_ERR_STATS_EMCY_OVERFLOW,
    SUBIDX_DIAG_ERR_STATS_EMCY_WRITE, SUBIDX_DIAG_ERR_STATS_EN_EDGE,
    SUBIDX_DIAG_ERR_STATS_HIST_WRITE, SUBIDX_DIAG_ERR_STATS_STATIC_ERR_CHG,
};
use powerlink_rs::od::{Category, Object, ObjectDictionary, ObjectEntry, ObjectValue};

const IDX_ERR_HISTORY: u16 = 0x1003;
/// Of a longer history that is loaded, the newest are taken.
const HISTORY_PLACES: usize = 254;

const INDICES: [u16; 6] = [
    IDX_NMT_ERROR_REGISTER_U8,
    IDX_ERR_HISTORY,
    IDX_NMT_CYCLE_LEN_U32,
    IDX_DIAG_ERR_STATISTICS_REC,
    IDX_DLL_CN_LOSS_OF_SOC_TOL_U32,
    IDX_NMT_CURR_NMT_STATE_U8,
];

/// The sub-indices of counters 1, 2, 3 and 5.
const COUNTERS: [u8; 4] = [
    SUBIDX_DIAG_ERR_STATS_HIST_WRITE,
    SUBIDX_DIAG_ERR_STATS_EMCY_WRITE,
    SUBIDX_DIAG_ERR_STATS_EMCY_OVERFLOW,
    SUBIDX_DIAG_ERR_STATS_STATIC_ERR_CHG,
];

/// Whether a reset's restore changes the objects.
#[derive(Debug, Clone, Copy, PartialEq, Eq)]
pub enum Defaults {
    /// No object has a default value, so a restore leaves all.
    Without,
    /// The objects that a load can name have one, except for the history, which a restore leaves.
    With,
}

impl Defaults {
    fn of(self, index: u16) -> Option<ObjectValue> {
        let value = match index {
            IDX_NMT_ERROR_REGISTER_U8 => ObjectValue::Unsigned8(0),
            IDX_NMT_CYCLE_LEN_U32 => ObjectValue::Unsigned32(2000),
            IDX_DLL_CN_LOSS_OF_SOC_TOL_U32 => ObjectValue::Unsigned32(50_000),
            IDX_DIAG_ERR_STATISTICS_REC => ObjectValue::Unsigned32(0),
            _ => return None,
        };
        (self == Defaults::With).then_some(value)
    }
}

pub struct Dictionary {
    defaults: Defaults,
}

impl Dictionary {
    pub fn new(defaults: Defaults) -> Self {
        Self { defaults }
    }

    /// The dictionary of a fresh head.
    pub fn fresh(&self, start: &Start) -> ObjectDictionary<'static> {
        let mut od = ObjectDictionary::new(None);
        let zeros = vec![ObjectValue::Unsigned32(0); SUBIDX_DIAG_ERR_STATS_EN_EDGE as usize];
        self.put(&mut od, IDX_DIAG_ERR_STATISTICS_REC, Object::Record(zeros));
        // The machine writes its state here at each change.
        let state = Object::Variable(ObjectValue::Unsigned8(0));
        self.put(&mut od, IDX_NMT_CURR_NMT_STATE_U8, state);
        let values = Load {
            register: Some(start.register),
            cycle: Some(start.cycle),
            tolerance: Some(start.tolerance),
            counters: start.counters.map(Some),
            history: Some(Vec::new()),
        };
        self.load(&mut od, &values);
        od
    }

    /// Sets the values that the load names.
    pub fn load(&self, od: &mut ObjectDictionary<'static>, load: &Load) {
        if let Some(register) = load.register {
            let value = ObjectValue::Unsigned8(register);
            self.put(od, IDX_NMT_ERROR_REGISTER_U8, Object::Variable(value));
        }
        if let Some(cycle) = load.cycle {
            self.put_or_remove(od, IDX_NMT_CYCLE_LEN_U32, cycle);
        }
        if let Some(tolerance) = load.tolerance {
            self.put_or_remove(od, IDX_DLL_CN_LOSS_OF_SOC_TOL_U32, tolerance);
        }
        for (sub_index, counter) in COUNTERS.into_iter().zip(load.counters) {
            if let Some(counter) = counter {
                let value = ObjectValue::Unsigned32(counter);
                od.write(IDX_DIAG_ERR_STATISTICS_REC, sub_index, value)
                    .expect("the counters exist");
            }
        }
        if let Some(history) = &load.history {
            let newest = history.iter().take(HISTORY_PLACES);
            let values = newest.map(|entry| ObjectValue::Domain(entry.to_vec()));
            self.put(od, IDX_ERR_HISTORY, Object::Array(values.collect()));
        }
    }

    fn put(&self, od: &mut ObjectDictionary, index: u16, object: Object) {
        let entry = ObjectEntry {
            object,
            name: "",
            category: Category::Optional,
            access: None,
            default_value: self.defaults.of(index),
            value_range: None,
            pdo_mapping: None,
        };
        od.insert(index, entry);
    }

    fn put_or_remove(&self, od: &mut ObjectDictionary<'static>, index: u16, value: Option<u32>) {
        match value {
            Some(value) => {
                let object = Object::Variable(ObjectValue::Unsigned32(value));
                self.put(od, index, object);
            }
            None if od.read_object(index).is_some() => *od = self.without(od, index),
            None => {}
        }
    }

    /// The original dictionary removes no object, so the others are put into a new one.
    fn without(&self, od: &ObjectDictionary, gone: u16) -> ObjectDictionary<'static> {
        let mut smaller = ObjectDictionary::new(None);
        for index in INDICES.into_iter().filter(|index| *index != gone) {
            if let Some(object) = od.read_object(index) {
                self.put(&mut smaller, index, object.clone());
            }
        }
        smaller
    }
}

pub fn register(od: &ObjectDictionary) -> u8 {
    od.read_u8(IDX_NMT_ERROR_REGISTER_U8, 0)
        .expect("the register exists")
}

pub fn cycle(od: &ObjectDictionary) -> Option<u32> {
    od.read_u32(IDX_NMT_CYCLE_LEN_U32, 0)
}

pub fn tolerance(od: &ObjectDictionary) -> Option<u32> {
    od.read_u32(IDX_DLL_CN_LOSS_OF_SOC_TOL_U32, 0)
}

/// Counters 1, 2, 3 and 5.
pub fn counters(od: &ObjectDictionary) -> [u32; 4] {
    COUNTERS.map(|sub_index| {
        od.read_u32(IDX_DIAG_ERR_STATISTICS_REC, sub_index)
            .expect("the counters exist")
    })
}

/// The entries' bytes, newest first.
pub fn history<'a>(od: &'a ObjectDictionary) -> impl ExactSizeIterator<Item = &'a [u8]> {
    let Some(Object::Array(values)) = od.read_object(IDX_ERR_HISTORY) else {
        panic!("the history stays an array");
    };
    values.iter().map(|value| match value {
        ObjectValue::Domain(bytes) => bytes.as_slice(),
        other => panic!("an entry is a domain: {other:?}"),
    })
}

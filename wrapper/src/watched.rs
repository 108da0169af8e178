//! The run of watched nodes.

use crate::Refusal;
use crate::raw;
use crate::raw::{Run, Watched};
use crate::refusal::taken;

impl Watched {
    /// A node that was never heard yet, with its timeout in µs; 0: it is never late.
    pub const fn new(node: u8, timeout_us: u64) -> Self {
        Self {
            node: node as u64,
            timeout_us,
            last_heard_us: 0,
        }
    }
}

impl Run {
    /// A run of these nodes. Where there are more than 32, its number says so, and it is not well
    /// formed.
    pub(crate) fn of(watched: &[Watched]) -> Self {
        let mut run = Self {
            number: watched.len() as u64,
            ..Self::default()
        };
        for (place, watched) in run.place.iter_mut().zip(watched) {
            *place = *watched;
        }
        run
    }

    /// The watched nodes: the places up to the number, or all where the number is above 32.
    pub fn watched(&self) -> &[Watched] {
        let number = usize::try_from(self.number).unwrap_or(usize::MAX);
        self.place.get(..number).unwrap_or(&self.place)
    }

    /// The watched nodes as bits (rule 8.7).
    ///
    /// # Errors
    ///
    /// Refused, in this order:
    /// - [`Refusal::WatchedNodes`]: the run is not well formed (rule 8.2)
    pub fn bitmap(&self) -> Result<Bitmap, Refusal> {
        let mut bitmap = raw::Bitmap::default();
        taken(raw::plcn_bitmap(self, &mut bitmap))?;
        Ok(Bitmap(bitmap))
    }
}

/// The watched nodes as bits (rule 8.7).
///
/// ```
/// use powerlink_cn::{Node, Refusal, Setup, Watched};
///
/// # fn main() -> Result<(), Refusal> {
/// let node = Node::start(&Setup::new(7), &[Watched::new(3, 0), Watched::new(17, 5000)])?;
/// let bitmap = node.bitmap()?;
/// assert_eq!(bitmap.nodes(), 2);
/// assert!(bitmap.has(17) && !bitmap.has(7));
/// assert_eq!(bitmap.bytes()[..3], [0x08, 0x00, 0x02]);
/// # Ok(())
/// # }
/// ```
#[derive(Debug, Clone, Copy, PartialEq, Eq)]
pub struct Bitmap(raw::Bitmap);

impl Bitmap {
    /// The bits: node n is bit n % 8 of byte n / 8, lowest bit first.
    pub const fn bytes(&self) -> &[u8; 32] {
        &self.0.byte
    }

    /// How many nodes are watched: how many bits are set.
    pub const fn nodes(&self) -> u32 {
        self.0.nodes
    }

    /// Whether a node is watched.
    pub const fn has(&self, node: u8) -> bool {
        self.0.byte[(node / 8) as usize] >> (node % 8) & 1 == 1
    }
}

//! The kernel of a rewrite.

use crate::error::Error;
use vbtf_sys::{vbtf_asked, vbtf_kernel, vbtf_named};

/// A feature that an older kernel may lack: a kind of BTF, or a use of one.
///
/// ```
/// use vbtf::{Feature, Kernel};
///
/// let old = Kernel::with(&[Feature::Func, Feature::DataSec]);
/// let lacks: Vec<Feature> = Feature::ALL.into_iter().filter(|it| !old.has(*it)).collect();
/// assert_eq!(lacks[0], Feature::FuncGlobal);
/// ```
#[derive(Debug, Clone, Copy, PartialEq, Eq, Hash)]
#[non_exhaustive]
pub enum Feature {
    /// FUNC and FUNC_PROTO.
    Func,
    /// A FUNC whose linkage is Global.
    FuncGlobal,
    /// VAR and DATASEC.
    DataSec,
    /// A DATASEC without entries.
    DataSecZero,
    /// FLOAT.
    Float,
    /// DECL_TAG.
    DeclTag,
    /// TYPE_TAG.
    TypeTag,
    /// ENUM64, and an ENUM with a sign.
    Enum64,
}

impl Feature {
    /// All eight.
    pub const ALL: [Feature; 8] = [
        Feature::Func,
        Feature::FuncGlobal,
        Feature::DataSec,
        Feature::DataSecZero,
        Feature::Float,
        Feature::DeclTag,
        Feature::TypeTag,
        Feature::Enum64,
    ];
}

impl TryFrom<u32> for Feature {
    type Error = Error;

    /// The feature whose bit in a kernel's features has this number; [`Error::InvalidArgument`] if none has.
    fn try_from(number: u32) -> Result<Self, Error> {
        Feature::ALL.get(number as usize).copied().ok_or(Error::InvalidArgument)
    }
}

/// A feature that a rewrite asked about, and whether the kernel has it.
///
/// ```
/// use vbtf::{Endianness, Feature, FeatureAnswer, Kernel, Table};
///
/// let mut table = Table::new()?;
/// let float = [table.add_string("double")?, 0x1000_0000, 8];
/// table.add_type(&float.map(u32::to_le_bytes).concat(), Endianness::Little)?;
///
/// let answers = table.rewrite(&Kernel::with(&[]))?;
/// assert_eq!(answers, [FeatureAnswer { feature: Feature::Float, granted: false }]);
/// # Ok::<(), vbtf::Error>(())
/// ```
#[derive(Debug, Clone, Copy, PartialEq, Eq)]
pub struct FeatureAnswer {
    /// The feature.
    pub feature: Feature,
    /// Whether the kernel has it.
    pub granted: bool,
}

/// The features of a kernel, and the sizes of the sections and the offsets of the symbols of a program.
///
/// ```
/// use vbtf::{Feature, Kernel};
///
/// let mut kernel = Kernel::with(&[Feature::Func, Feature::DataSec]);
/// kernel.section(".data", 32).symbol("counter", 8);
/// assert!(kernel.has(Feature::Func) && !kernel.has(Feature::Float));
/// ```
#[derive(Debug, Clone, Default)]
pub struct Kernel {
    pub(crate) words: vbtf_kernel,
    pub(crate) sections: Names,
    pub(crate) symbols: Names,
}

/// Names in one buffer, and a number for each.
#[derive(Debug, Clone, Default)]
pub(crate) struct Names {
    pub(crate) names: String,
    pub(crate) entries: Vec<vbtf_named>,
}

impl Names {
    fn push(&mut self, name: &str, number: u64) {
        let at = u32::try_from(self.names.len()).expect("names have less than 4 GB");
        let len = u32::try_from(name.len()).expect("names have less than 4 GB");
        self.names.push_str(name);
        self.entries.push(vbtf_named { at, len, number });
    }
}

impl Kernel {
    /// A kernel that has these features, and no other.
    pub fn with(features: &[Feature]) -> Self {
        Self::probed(|feature| features.contains(&feature))
    }

    /// A kernel that has the features for which the closure returns true. This function calls the closure once for each
    /// of the eight features, before the rewrite; the rewrite in Rattle calls its predicate only for the features that
    /// the table needs. So cache the results of a probe that is slow or loads a program from one rewrite to the next.
    ///
    /// ```
    /// use vbtf::{Feature, Kernel};
    ///
    /// let mut probed = Vec::new();
    /// let kernel = Kernel::probed(|feature| {
    ///     probed.push(feature);
    ///     feature != Feature::Enum64
    /// });
    /// assert_eq!(probed, Feature::ALL);
    /// assert!(kernel.has(Feature::Func) && !kernel.has(Feature::Enum64));
    /// ```
    pub fn probed(mut has: impl FnMut(Feature) -> bool) -> Self {
        let mut kernel = Self::default();
        for feature in Feature::ALL {
            kernel.words.features |= u32::from(has(feature)) << feature as u32;
        }
        kernel
    }

    /// Whether the kernel has a feature.
    pub fn has(&self, feature: Feature) -> bool {
        self.words.features >> feature as u32 & 1 == 1
    }

    /// A DATASEC that has a size and no entries gets an entry, if the kernel rejects a DATASEC without entries.
    pub fn fill_sized(&mut self) -> &mut Self {
        self.words.fill_sized = 1;
        self
    }

    /// The size of a section of the program, by its name.
    pub fn section(&mut self, name: &str, size: u64) -> &mut Self {
        self.sections.push(name, size);
        self
    }

    /// The offset of a symbol of the program, by its name.
    pub fn symbol(&mut self, name: &str, offset: u64) -> &mut Self {
        self.symbols.push(name, offset);
        self
    }

    /// The ids of the DATASEC `.ksyms`, and of the variable that replaces functions in it. Neither is 0.
    pub fn ksyms(&mut self, datasec_id: u32, placeholder_id: Option<u32>) -> &mut Self {
        self.words.ksyms = datasec_id;
        self.words.placeholder = placeholder_id.unwrap_or(0);
        self
    }
}

/// The answers, in order.
pub(crate) fn answers_of(asked: &vbtf_asked) -> Vec<FeatureAnswer> {
    let count = asked.features.len().min(asked.count as usize);
    let both = asked.features.iter().zip(&asked.granted).take(count);
    both.map(|(feature, granted)| FeatureAnswer {
        feature: Feature::ALL[usize::from(*feature)],
        granted: *granted == 1,
    })
    .collect()
}

//! Stand-in for the crate `raw_cpuid`: words and feature flags come from the arrays of [`machine`].

/// The four words of a CPUID leaf.
#[derive(Clone, Copy, Debug, PartialEq, Eq)]
pub struct CpuIdResult {
    pub eax: u32,
    pub ebx: u32,
    pub ecx: u32,
    pub edx: u32,
}

/// The host's words: the report carries those of the leaf and subleaf in question.
pub fn cpuid_count(_leaf: u32, _subleaf: u32) -> CpuIdResult {
    let [eax, ebx, ecx, edx] = machine::with(|m| m.cpuid);
    CpuIdResult { eax, ebx, ecx, edx }
}

#[macro_export]
macro_rules! cpuid {
    ($leaf:expr, $subleaf:expr) => {
        $crate::cpuid_count($leaf as u32, $subleaf as u32)
    };
}

pub struct CpuId;
pub struct FeatureInfo;
pub struct ExtendedFeatures;
pub struct ExtendedStateInfo;
pub struct ExtendedProcessorFeatureIdentifiers;

impl CpuId {
    #[allow(clippy::new_without_default)]
    pub fn new() -> Self {
        CpuId
    }

    pub fn get_feature_info(&self) -> Option<FeatureInfo> {
        Some(FeatureInfo)
    }

    pub fn get_extended_feature_info(&self) -> Option<ExtendedFeatures> {
        Some(ExtendedFeatures)
    }

    pub fn get_extended_state_info(&self) -> Option<ExtendedStateInfo> {
        Some(ExtendedStateInfo)
    }

    pub fn get_extended_processor_and_feature_identifiers(&self) -> Option<ExtendedProcessorFeatureIdentifiers> {
        Some(ExtendedProcessorFeatureIdentifiers)
    }
}

impl FeatureInfo {
    pub fn has_xsave(&self) -> bool {
        machine::with(|m| m.has_xsave)
    }

    pub fn has_vmx(&self) -> bool {
        true
    }
}

impl ExtendedFeatures {
    pub fn has_invpcid(&self) -> bool {
        machine::with(|m| m.has_invpcid)
    }
}

impl ExtendedStateInfo {
    pub fn has_xsaves_xrstors(&self) -> bool {
        machine::with(|m| m.has_xsaves)
    }
}

impl ExtendedProcessorFeatureIdentifiers {
    pub fn has_rdtscp(&self) -> bool {
        machine::with(|m| m.has_rdtscp)
    }
}

//! Stands in for the data dumper, which is not among the published files we
//! hold. It records nothing; the published `dump` functions only hand it
//! figures and take none back.

pub enum DiagnosticLevel {
    Developer,
    DeepDebug,
}

pub struct ApmDataDumper;

impl ApmDataDumper {
    pub fn dump_raw_f32(&self, _level: DiagnosticLevel, _name: &str, _value: f32) {}

    pub fn dump_raw_f32_slice(&self, _level: DiagnosticLevel, _name: &str, _values: &[f32]) {}
}

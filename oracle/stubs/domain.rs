// Type stub: the country tables name a feature, and the oracle makes none.

#[derive(Debug, Clone, PartialEq)]
pub struct FeatureId(String);

impl FeatureId {
    pub fn as_str(&self) -> &str {
        &self.0
    }
}

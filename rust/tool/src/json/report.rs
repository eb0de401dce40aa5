//! A report: each rule, each lead.

use serde::Serialize;

use super::leads::{Counted, Lead};

/// The content that `report` shows: each rule, each lead.
#[derive(Serialize)]
pub struct Report {
    #[serde(flatten)]
    pub counted: Option<Counted>,
    pub rules: Vec<Rule>,
    pub leads: Vec<Lead>,
    /// Which answers are not certain, if some are not.
    #[serde(skip_serializing_if = "Option::is_none")]
    pub caution: Option<String>,
}

/// A rule that was asked alone.
#[derive(Serialize)]
pub struct Rule {
    pub number: u8,
    pub name: &'static str,
    pub broken: bool,
    /// Whether every rule before it is kept.
    pub certain: bool,
    pub found: Vec<String>,
}

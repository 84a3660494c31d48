//! Areas of transmitters, request 14.

use crate::types::areas::AreaPlan;
use crate::types::Answer;

/// A core that plans areas and checks plans.
pub trait Areas: Sync {
    /// Proposes the areas of a site, each as long as it may be. Refusals: 34, 35.
    fn plan_areas(&self, site: &[u32]) -> Answer<AreaPlan>;

    /// Accepts a plan for a site. Refusals: 34, 36.
    fn check_areas(&self, site: &[u32], plan: &[u8]) -> Answer<()>;
}

//! Answers by document 01's text, written plainly.

mod amplitude;
mod cut;
mod equivalence;
mod expansion;
mod generator;
mod membership;
mod orbit;
mod parts;
mod product;
mod reduction;
mod refusals;
mod shared;
mod step;
mod store;
mod strings;

pub use amplitude::{plot_lines, turns, Bits};
pub use cut::cut_rank;
pub use equivalence::{image_of, least_choice, Group};
pub use expansion::expanded;
pub use generator::{draw, generate_refusal, job_text, step, steps, Step};
pub use membership::{is_element, row_value};
pub use orbit::{graph_number, graph_with_number, orbit, orbit_refusal, pairs};
pub use parts::parts;
pub use product::product;
pub use reduction::reduced;
pub use refusals::{argument_refusal, cut_refusal, expectation_refusal};
pub use refusals::{image_refusal, in_place_refusal};
pub use refusals::{list_refusal, pair_refusal, product_refusal, record_refusal};
pub use shared::{group_after, group_refusal, taken};
pub use step::after;
pub use store::store_refusal;
pub use strings::{strings_read, strings_text};

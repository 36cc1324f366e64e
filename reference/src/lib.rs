// The reference implementation of document 01 and of requests K1, K2, K4, K5 and K6 of document 02: sheets, builds, walks, the monitor,
// reports, the converter of operation sheets. It rests on the standard library alone; every public function is total.

mod bounded;
pub mod catalogue;
mod cheapest;
mod construction;
pub mod corpus;
mod graph;
mod header;
mod listing;
mod margins;
mod operations;
pub mod random;
mod report;
mod walk;

pub use bounded::{check_bounded, copies_at, edge_words, filled_words};
pub use construction::{build, completion_table, Built};
pub use graph::{budgets_sheet, check_graph, graph_sheet, paper_example, successor_count, with_budgets};
pub use listing::{listing, LARGEST_AREA, LARGEST_OUTPUT};
pub use operations::{convert_operations, converted_file};
pub use report::{catalogue_sheets, report, unused_blocks};
pub use walk::{bounded_move, guarded_move, monitor_step, start_bounded, start_guarded, End, Monitor, Walk};

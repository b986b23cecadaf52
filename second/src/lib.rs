//! The rules of tasks, clauses, models and schedules, written a second time
//! and independently, to be compared with another implementation. Clarity
//! comes before speed everywhere.

pub mod answers;
pub mod brute_force;
pub mod cases;
pub mod checker;
pub mod clauses;
pub mod damage;
pub mod draft;
pub mod limits;
pub mod numbering;
pub mod outputs;
pub mod programs;
pub mod protocol;
pub mod random;
pub mod refusal;
pub mod rows;
pub mod schedule;
pub mod solver_lines;
pub mod task_file;
pub mod text;
pub mod texts;
pub mod translator;

cfg_rt! {
    mod task;
    pub use task::Task;
}
cfg_not_rt! { pub struct Task(u8); }

pub struct Handle { id: u64, task: Task }

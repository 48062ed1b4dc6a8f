//! The specification, `docs/SPECIFICATION.md`, in plain Rust, written apart from the component: trees, vectors
//! and recursion.
//! It is held against the proved component; `fast` is the baseline that the component's speed is measured by.

pub mod cases;
pub mod check;
pub mod edges;
pub mod equality;
pub mod fast;
pub mod generate;
pub mod random;
pub mod search;
pub mod solve;
pub mod terms;
pub mod text;
pub mod words;

/// Runs `work` on a stack that the deepest term of any loan fits.
pub fn on_deep_stack<R: Send + 'static>(work: impl FnOnce() -> R + Send + 'static) -> R {
    std::thread::Builder::new()
        .stack_size(1 << 30)
        .spawn(work)
        .expect("a thread")
        .join()
        .unwrap_or_else(|cause| std::panic::resume_unwind(cause))
}

//! The whole program over memory.
use crate::gil::without;
use pyo3::prelude::*;
use pyo3::types::PyBytes;

/// Runs the program with arguments and a standard input: returns its status and its output.
#[pyfunction]
pub fn program(py: Python<'_>, words: Vec<String>, document: Vec<u8>) -> (u8, &PyBytes) {
    let words: Vec<&str> = words.iter().map(String::as_str).collect();
    let answer = without(py, || vortex_select::run(&words, &document));
    (answer.status, PyBytes::new(py, &answer.text))
}

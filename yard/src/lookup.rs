//! `yard lookup`: builds a table and answers addresses.

use crate::arrays::{Arrays, How};
use crate::routes::{Routes, TableFile};
use crate::{shown, words, Problem};

pub fn run(table: &TableFile, how: How, addresses: &[u32]) -> Result<String, Problem> {
    let routes = Routes::read(table)?;
    let (arrays, _) = Arrays::build(how, routes.table()).map_err(|refusal| words::of_build(refusal, &routes, how))?;
    let lines: Result<Vec<_>, _> =
        addresses.iter().map(|address| shown::line(*address, arrays.lookup(*address))).collect();
    Ok(format!("{how}: {}\n{}", shown::size(&arrays), shown::answers(&lines?)))
}

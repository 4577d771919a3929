//! Which rows steps leave, without a column.
use super::error::Error;
use super::steps::Step;
use vortex_select_sys::arrow::{self as sys, status, Answer, Fault, PicksNeed};

/// The rows that steps select, in order.
#[derive(Clone, Debug, PartialEq, Eq)]
pub struct Picks {
    /// The number of each row, 0 at a null.
    pub places: Vec<u64>,
    /// A bit for each row, clear at a null; `None` if no take may leave nulls.
    pub valid: Option<Vec<u8>>,
}

/// The steps of a call, and how many rows they apply to.
struct Call<'a> {
    len: u64,
    steps: &'a [Step<'a>],
    images: Vec<sys::Step>,
}

impl Call<'_> {
    fn done(&self, answer: Answer) -> Result<(), Error> {
        if answer.status == status::DONE {
            return Ok(());
        }
        let (list, count) = (self.images.as_ptr(), self.images.len());
        let mut fault = Fault::none();
        // SAFETY: the lists of the steps are borrowed, and the answer is that of a call with them.
        unsafe { sys::vortex_arrow_explain(self.len, list, count, answer, &mut fault) };
        Err(Error::of_fault(&fault, self.steps))
    }
}

/// Returns a list of zeros, or an error if it can't be allocated.
fn zeros<T: Clone + Default>(len: u64) -> Result<Vec<T>, Error> {
    let len = usize::try_from(len).map_err(|_| Error::NoMemory)?;
    let mut list = Vec::new();
    list.try_reserve_exact(len).map_err(|_| Error::NoMemory)?;
    list.resize(len, T::default());
    Ok(list)
}

/// Returns the numbers of the rows that the steps select of `len` rows.
///
/// ```
/// use vortex_select::arrow::{picks, Step};
///
/// let left = picks(4, &[Step::slice(1, 4), Step::take(&[2, 0])])?;
/// assert_eq!((left.places, left.valid), (vec![3, 1], None));
/// # Ok::<(), vortex_select::arrow::Error>(())
/// ```
pub fn picks(len: u64, steps: &[Step]) -> Result<Picks, Error> {
    let images = steps.iter().map(Step::image).collect();
    let call = Call { len, steps, images };
    let (list, count) = (call.images.as_ptr(), call.images.len());
    let mut need = PicksNeed::default();
    // SAFETY: the lists of the steps are borrowed, and `need` is written alone.
    call.done(unsafe { sys::vortex_arrow_count(len, list, count, &mut need) })?;
    let mut places: Vec<u64> = zeros(need.places)?;
    let mut valid: Vec<u8> = zeros(need.valid)?;
    let (p, n) = (places.as_mut_ptr(), places.len());
    let (v, m) = (valid.as_mut_ptr(), valid.len());
    // SAFETY: both lists are as long as is said and are written alone.
    call.done(unsafe { sys::vortex_arrow_compose(len, list, count, p, n, v, m) })?;
    let is_nullable = steps.iter().any(Step::leaves_nulls);
    Ok(Picks {
        places,
        valid: Some(valid).filter(|_| is_nullable),
    })
}

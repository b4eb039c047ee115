use crate::{ffi, Error};
use std::collections::HashMap;

/// A load order.
#[derive(Clone, Debug, PartialEq, Eq)]
pub struct Order<'a> {
    /// The items' names: each behind all that it depends on, and otherwise the earliest listed first.
    pub names: Vec<&'a str>,
    /// The same as indices of the listed items.
    pub items: Vec<usize>,
    /// How many listed dependencies have their target placed: in a load order, all.
    pub settled: u32,
}

/// The load order of items, each a name and the names of what it depends on.
///
/// ```
/// use witbox::{dependency, toposort, Error};
///
/// let items = [("desk", vec!["clock", "rooms"]), ("rooms", vec!["clock"]), ("clock", vec![])];
/// assert_eq!(toposort(&items)?.names, ["clock", "rooms", "desk"]);
///
/// let items = [("desk", vec!["clock", "lamp"]), ("clock", vec![])];
/// assert_eq!(toposort(&items), Err(Error::ItemNotFound(1)));
/// assert_eq!(dependency(&items, 1), Some((0, "lamp")));
/// # Ok::<(), Error>(())
/// ```
pub fn toposort<'a, D: AsRef<[&'a str]>>(items: &[(&'a str, D)]) -> Result<Order<'a>, Error> {
    ordered(ffi::toposort, items)
}

/// A load order that this library proposes for items: one for all that [`toposort`] accepts, and else its refusal. [`check_order`]
/// accepts it. Today it is the order of [`toposort`].
///
/// ```
/// use witbox::{check_order, propose, Error};
///
/// let items = [("desk", vec!["clock"]), ("clock", vec![])];
/// let order = propose(&items)?;
/// assert_eq!(order.names, ["clock", "desk"]);
/// check_order(&items, &order.items)?;
/// # Ok::<(), Error>(())
/// ```
pub fn propose<'a, D: AsRef<[&'a str]>>(items: &[(&'a str, D)]) -> Result<Order<'a>, Error> {
    ordered(ffi::propose, items)
}

/// Whether a list of indices is a load order of items: each of them once and nothing else, and all that an item depends on before it.
/// Whoever made it: it need not be the order of [`toposort`].
///
/// ```
/// use witbox::{check_order, Error};
///
/// let items = [("desk", vec!["clock"]), ("clock", vec![]), ("lamp", vec![])];
/// assert_eq!(check_order(&items, &[1, 0, 2]), Ok(()));
/// assert_eq!(check_order(&items, &[2, 1, 0]), Ok(()));
/// // the desk's clock is not before it; the lamp comes again; there are no items behind the last; the list ends too soon
/// assert_eq!(check_order(&items, &[2, 0, 1]), Err(Error::NotAnOrder(1)));
/// assert_eq!(check_order(&items, &[1, 2, 2]), Err(Error::NotAnOrder(2)));
/// assert_eq!(check_order(&items, &[3, 1, 0]), Err(Error::NotAnOrder(0)));
/// assert_eq!(check_order(&items, &[1, 0]), Err(Error::NotAnOrder(2)));
/// ```
pub fn check_order<'a, D: AsRef<[&'a str]>>(
    items: &[(&'a str, D)],
    list: &[usize],
) -> Result<(), Error> {
    let (sheet, names) = sheet(items);
    let words: Vec<u32> = list.iter().map(|&item| word(item)).collect();
    ffi::check_order(&sheet, &names, &words)
}

fn ordered<'a, D: AsRef<[&'a str]>>(
    call: fn(&[u32], &[u8], &mut [u32]) -> Result<u32, Error>,
    items: &[(&'a str, D)],
) -> Result<Order<'a>, Error> {
    let (sheet, names) = sheet(items);
    let mut order = vec![0; items.len()];
    let settled = call(&sheet, &names, &mut order)?;
    let items_in_order = order.iter().map(|&item| item as usize);
    Ok(Order {
        names: items_in_order.clone().map(|item| items[item].0).collect(),
        items: items_in_order.collect(),
        settled,
    })
}

/// Whose a dependency is, as an index of the items, and the name that it is on. Dependencies count through all items from 0, as in
/// [`Error::ItemNotFound`] and [`Error::TypeCycle`].
pub fn dependency<'a, D: AsRef<[&'a str]>>(
    items: &[(&'a str, D)],
    dependency: u32,
) -> Option<(usize, &'a str)> {
    let each = items.iter().enumerate();
    let mut all =
        each.flat_map(|(item, (_, needs))| needs.as_ref().iter().map(move |&name| (item, name)));
    all.nth(dependency as usize)
}

/// The dependency sheet and its names, as `witbox_toposort` of `include/witbox.h` takes them. A name that comes again is not written
/// again. Counts and places past the caps are refused before they are looked at, so that they may be cut.
fn sheet<'a, D: AsRef<[&'a str]>>(items: &[(&'a str, D)]) -> (Vec<u32>, Vec<u8>) {
    let mut names = Names::default();
    let (mut rows, mut dependencies) = (Vec::new(), Vec::new());
    for (name, needs) in items {
        let first = dependencies.len() / 4;
        for &need in needs.as_ref() {
            dependencies.extend(names.range(need));
            dependencies.extend([0, 0]);
        }
        let count = needs.as_ref().len();
        rows.extend(names.range(name));
        rows.extend([word(first), word(count)]);
    }
    let behind = 5 + rows.len();
    let mut sheet = vec![
        word(items.len()),
        word(dependencies.len() / 4),
        5,
        word(behind),
        word(behind + dependencies.len()),
    ];
    sheet.append(&mut rows);
    sheet.append(&mut dependencies);
    (sheet, names.bytes)
}

fn word(number: usize) -> u32 {
    u32::try_from(number).unwrap_or(u32::MAX)
}

#[derive(Default)]
struct Names<'a> {
    bytes: Vec<u8>,
    places: HashMap<&'a str, usize>,
}

impl<'a> Names<'a> {
    /// A name's place and length.
    fn range(&mut self, name: &'a str) -> [u32; 2] {
        let bytes = &mut self.bytes;
        let place = *self.places.entry(name).or_insert_with(|| {
            bytes.extend(name.as_bytes());
            bytes.len() - name.len()
        });
        [word(place), word(name.len())]
    }
}

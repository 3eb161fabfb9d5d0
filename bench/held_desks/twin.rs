//! The twin of main.rt.txt: that of `../desks`, whose workers have the same tasks at hand for the whole run.
#[path = "../desks/twin.rs"]
mod desks;

fn main() {
    desks::main();
}

// A second scheduler, one tick at a time and without bursts, that prints the tapes of a fixed list of runs.
mod core;
mod monitor;
mod runs;

fn main() {
    runs::all();
}

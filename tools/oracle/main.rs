// Writes a listing of what the Rust original answers. The gate's programs print the same listings.
//
// The original is read where it lies, unchanged: color.rs is built as a crate of its own, and the text of pvrtc.rs is taken into the
// module `pvrtc` below. A listing is a file of the folder pvrtc, a module inside that one, so that it sees the private functions.

extern crate color;

mod draw;

#[allow(dead_code)]
mod pvrtc {
    include!(concat!(env!("ORIGINAL"), "/pvrtc.rs"));

    mod call;
    pub mod leaves;
    pub mod modes;
    pub mod pictures;
    pub mod texels;
}

fn main() {
    let name = std::env::args().nth(1).unwrap_or_default();
    match name.as_str() {
        "leaves" => pvrtc::leaves::print(),
        "modes" => pvrtc::modes::print(),
        "pictures" => pvrtc::pictures::print(),
        "texels" => pvrtc::texels::print(),
        _ => {
            eprintln!(
                "oracle: no listing is called '{name}'; there are: leaves, modes, pictures, texels"
            );
            std::process::exit(2);
        }
    }
}

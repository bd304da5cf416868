//! Links kissfft, the host's Fourier transform.

fn main() {
    println!("cargo:rustc-link-lib=kissfft-float");
}

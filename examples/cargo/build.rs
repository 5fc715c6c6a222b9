// Written for the crate `cc`, as any build script is: nothing here knows of the facade.
fn main() {
    cc::Build::new()
        .file("native/area.c")
        .file("native/shape.c")
        .include("native")
        .define("SCALE", "2")
        .flag_if_supported("-fno-strict-aliasing")
        .warnings_into_errors(true)
        .compile("area");

    let mut words = cc::Build::new();
    words.cpp(true).std("c++17").file("native/words.cpp");
    let objects = words.compile_intermediates();
    let library = words.create_archive("words", &objects);
    cc::emit_link_directives(&words, &library);

    println!("cargo:rerun-if-changed=native");
}

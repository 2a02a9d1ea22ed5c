//! The C file that stands before the library: each function of the header, which calls the one of the library, renamed,
//! with the fault that an environment variable chooses.

use crate::faults::Wrong;
use signatures::{Function, Parameter};

/// What the functions of the library are called behind the shims.
pub const RENAMED: &str = "real_";

/// The variable that chooses a wrong library by its number. Without it the library is right.
pub const CHOICE: &str = "VP8LF_WRONG";

/// C over the functions of the library: `keep`, `step` and `drop`.
const WALK: &str = include_str!("../walk.c");

pub fn text(functions: &[Function], all: &[Wrong]) -> String {
    let declared: String = functions.iter().map(|function| format!("{};\n", head(function, RENAMED))).collect();
    let mut text = format!(
        "#include \"vp8_loop_filter.h\"\n#include <stdlib.h>\n\nstatic int wrong;\n\n\
         __attribute__((constructor)) static void choose(void)\n{{\n    const char *number = getenv(\"{CHOICE}\");\n    \
         wrong = number ? atoi(number) : 0;\n}}\n{COPY}\n{declared}\n{WALK}"
    );
    for function in functions {
        let of_it = |wrong: &&Wrong| wrong.function == function.name;
        let has = |name: &str| function.parameters.iter().any(|parameter| parameter.name == name);
        let pass = function.name.strip_prefix("vp8lf_loop_").map(|pass| format!("vp8lf_{pass}"));
        text += &if has("scratch_y") { tried(functions, function) } else { String::new() };
        text += &if has("smoothed") { walked(functions, function) } else { String::new() };
        text += &pass.as_ref().map_or(String::new(), |pass| beside(functions, pass));
        text += &shim(function, all.iter().filter(of_it));
        text += if has("scratch_y") { "#undef TRY\n#undef SEARCH\n" } else { "" };
        text += if has("smoothed") { NO_WALK } else { "" };
        text += if pass.is_some() { "#undef PASS\n" } else { "" };
    }
    text
}

/// Takes back what [`walked`] defines.
const NO_WALK: &str = "#undef KEPT\n#undef TOLD\n#undef WALKED_UNLESS\n#undef WALKED\n#undef WHOLE\n";

/// Copies the grid of a plane.
const COPY: &str = "
static void copy(uint8_t *to, const uint8_t *from, size_t wide, size_t high, size_t stride)
{
    for (size_t row = 0; wide > 0 && row < high; row++)
        for (size_t i = 0; i < wide; i++)
            to[row * stride + i] = from[row * stride + i];
}
";

/// A call of a function of the library with what is in scope by the names of its parameters, or stands for them here.
fn call(functions: &[Function], name: &str, instead: &[(&str, &str)]) -> String {
    let function = functions.iter().find(|function| function.name == name).expect("a function of the header");
    let argument = |parameter: &Parameter| {
        let other = instead.iter().find(|(name, _)| *name == parameter.name).map(|(_, other)| *other);
        String::from(other.unwrap_or(&parameter.name))
    };
    let arguments: Vec<String> = function.parameters.iter().map(argument).collect();
    format!("{RENAMED}{name}({})", arguments.join(", "))
}

/// What the faults of a frame call may use: `PASS` calls the pass that it stands beside.
fn beside(functions: &[Function], pass: &str) -> String {
    format!("\n#define PASS answer = {}\n", call(functions, pass, &[]))
}

/// What the faults of a pass or of a frame call may use, each in place of `CALL`: `WALKED(told)` tells a number of `w`, the
/// walk over what the call does, for the positions smoothed; `WALKED_UNLESS(off, told)` has every level 0 if `off`, as a
/// frame call has at header level 0; `WHOLE` tells those of the whole frame.
fn walked(functions: &[Function], function: &Function) -> String {
    let inter = function.parameters.iter().any(|parameter| parameter.name == "references");
    let level = if inter { "vp8lf_calculate_mb_filter_level_inter" } else { "vp8lf_calculate_mb_filter_level" };
    let entry = [
        ("segment", "segments[m]"),
        ("mode", "modes[m]"),
        ("reference", "references[m]"),
        ("inter_mode", "inter_modes[m]"),
        ("level", "&level_of_m"),
    ];
    let level = call(functions, level, &entry);
    let planes = [("y", "w.now[0]"), ("u", "w.now[1]"), ("v", "w.now[2]"), ("start", "0"), ("allowance", "SIZE_MAX")];
    let out = [("count", "&(size_t){0}"), ("next", "&(size_t){0}"), ("smoothed", "&whole")];
    let whole = call(functions, &function.name, &[&planes[..], &out].concat());
    let off = if function.name.starts_with("vp8lf_loop_") { "loop_filter_level == 0" } else { "false" };
    format!(
        "\n#define KEPT struct walk w = keep(simple, y, y_len, u, u_len, v, v_len, y_stride, uv_stride)\n\
         #define TOLD(told) if (answer == 0 && w.kept) *smoothed = (told); drop(&w)\n\
         #define WALKED_UNLESS(off, told) KEPT; CALL; \\\n    \
         for (size_t m = answer == 0 && w.kept ? *next - *count : SIZE_MAX; answer == 0 && m < *next; m++) {{ \\\n    \
         uint8_t level_of_m = 0; if (!(off)) {level}; \\\n    \
         step(&w, m, mb_cols, level_of_m, modes[m] == 4 || flags[m] != 0, sharpness_level, key_frame); }} TOLD(told)\n\
         #define WALKED(told) WALKED_UNLESS({off}, told)\n\
         #define WHOLE size_t whole = 0; KEPT; if (w.kept) {whole}; CALL; TOLD(whole)\n"
    )
}

/// What the faults of a search may use. `TRY(level, sharpness)` leaves in scratch what the pass with these leaves of the
/// reconstruction, for level 0 a copy of it, and is the error sum; `SEARCH` calls the search for level and sharpness.
fn tried(functions: &[Function], function: &Function) -> String {
    let inter = function.parameters.iter().any(|parameter| parameter.name == "references");
    let [pass, search] = match inter {
        false => ["vp8lf_filter_frame", "vp8lf_select_filter_params"],
        true => ["vp8lf_filter_inter_frame", "vp8lf_select_filter_params_inter"],
    };
    const SCRATCH: [(&str, &str); 6] = [
        ("y", "scratch_y"),
        ("y_len", "scratch_y_len"),
        ("u", "scratch_u"),
        ("u_len", "scratch_u_len"),
        ("v", "scratch_v"),
        ("v_len", "scratch_v_len"),
    ];
    let pair = [("loop_filter_level", "(try_level)"), ("sharpness_level", "(try_sharpness)")];
    let whole = [
        ("start", "0"),
        ("allowance", "SIZE_MAX"),
        ("count", "&tried_count"),
        ("next", "&tried_next"),
        ("smoothed", "&tried_smoothed"),
    ];
    let pass = call(functions, pass, &[&SCRATCH[..], &pair, &whole].concat());
    let sum = call(functions, "vp8lf_reconstruction_ssd", &[&SCRATCH[..], &[("sum", "&tried_sum")]].concat());
    let search = call(functions, search, &[("count", "&(size_t){0}")]);
    format!(
        "\n#define TRY(try_level, try_sharpness) ({{ size_t tried_count, tried_next, tried_smoothed; uint64_t tried_sum = 0; \\\n    \
         copy(scratch_y, y, 16 * mb_cols, 16 * mb_rows, y_stride); \\\n    \
         copy(scratch_u, u, 8 * mb_cols, 8 * mb_rows, uv_stride); \\\n    \
         copy(scratch_v, v, 8 * mb_cols, 8 * mb_rows, uv_stride); \\\n    \
         if ((try_level) > 0) {pass}; \\\n    {sum}; tried_sum; }})\n#define SEARCH {search}\n"
    )
}

/// One function, with a case for each of its faults.
fn shim<'a>(function: &Function, all: impl Iterator<Item = &'a Wrong>) -> String {
    let arguments: Vec<&str> = function.parameters.iter().map(|parameter| parameter.name.as_str()).collect();
    let call = format!("{RENAMED}{}({})", function.name, arguments.join(", "));
    let (answer, call, end) = match function.returns {
        Some(number) => (format!("    {number} answer;\n"), format!("answer = {call}"), "return answer;"),
        None => (String::new(), call, "return;"),
    };
    let case =
        |wrong: &Wrong| format!("    case {}: /* {} */\n    {{ {} {end} }}\n", wrong.number, wrong.what, wrong.body);
    let cases: String = all.map(case).collect();
    format!(
        "\n#define CALL {call}\n{}\n{{\n{answer}    switch (wrong) {{\n{cases}    default:\n    {{ CALL; {end} }}\n    \
         }}\n}}\n#undef CALL\n",
        head(function, "")
    )
}

/// A function with its parameters, this before its name.
fn head(function: &Function, before: &str) -> String {
    let parameters: Vec<String> = function.parameters.iter().map(|parameter| parameter.to_string()).collect();
    format!("{} {before}{}({})", function.returns.unwrap_or("void"), function.name, parameters.join(", "))
}

/// The lines by which `objcopy` renames the functions of the library.
pub fn renames(functions: &[Function]) -> String {
    functions.iter().map(|function| format!("{} {RENAMED}{}\n", function.name, function.name)).collect()
}

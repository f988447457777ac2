//! The lines of the Debug section.

use crate::sheet::Sheet;
use crate::{Text, TooLong};

fn quoted(strings: &[String], index: u64) -> String {
    let string = usize::try_from(index).ok().and_then(|index| strings.get(index));
    format!("{:?}", string.map_or("<bad string index>", String::as_str))
}

fn attribute(row: &[u64; 7], strings: &[String]) -> String {
    let &[tag, a, b, c, d, e, f] = row;
    let string = |index| quoted(strings, index);
    match tag {
        0 => "Unknown".to_owned(),
        1 => format!("DICompileUnit(file=di[{a}])"),
        2 => format!("DIFile(name={}, dir={})", string(a), string(b)),
        3 => format!("DILexicalBlock(scope=di[{a}], file=di[{b}], {c}:{d})"),
        4 => format!("DILoc(scope=di[{a}], {}:{c}:{d})", string(b)),
        5 => format!(
            "DISubprogram(file=di[{a}], line={b}, name={}, linkage={}, cu=di[{e}], scope_line={f})",
            string(c),
            string(d)
        ),
        6 => format!("CallSite(callee=di[{a}], caller=di[{b}])"),
        tag => unreachable!("no accepted file has a debug tag {tag}"),
    }
}

/// The attributes count from 1: 0 is kept for an unknown place.
pub fn section(text: &mut Text, sheet: &Sheet, strings: &[String]) -> Result<(), TooLong> {
    let lists = sheet.lists();
    text.line(format_args!("=== Debug ({} functions) ===", lists.len()))?;
    for (i, row) in sheet.attributes().iter().enumerate() {
        text.line(format_args!("  di[{}] = {}", i + 1, attribute(row, strings)))?;
    }
    for (i, ids) in lists.iter().enumerate() {
        let ids: Vec<String> = ids.iter().map(u64::to_string).collect();
        text.line(format_args!("  fn {i}: [{}]", ids.join(", ")))?;
    }
    Ok(())
}

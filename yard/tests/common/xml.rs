//! Whether a text is well-formed XML, as far as a picture needs it: one root, tags that close in order, attributes in double quotes and
//! none twice, and no bare `<` or `&` in text.

/// The names of the elements in their order; or what is wrong.
pub fn elements(text: &str) -> Result<Vec<String>, String> {
    let (mut open, mut seen): (Vec<String>, Vec<String>) = (Vec::new(), Vec::new());
    let mut rest = text.trim_end();
    while !rest.is_empty() {
        let words = rest.split('<').next().unwrap_or_default();
        is_text(words, open.is_empty())?;
        rest = &rest[words.len()..];
        let Some(tag) = rest.strip_prefix('<') else { continue };
        let (tag, after) = tag.split_once('>').ok_or("a tag without its end")?;
        rest = after;
        if let Some(name) = tag.strip_prefix('/') {
            (open.pop().as_deref() == Some(name)).then_some(()).ok_or(format!("</{name}> closes another"))?;
            continue;
        }
        if open.is_empty() && !seen.is_empty() {
            return Err(format!("<{tag}> is a second root"));
        }
        let (inner, is_closed) = tag.strip_suffix('/').map_or((tag, false), |inner| (inner, true));
        let name = start_tag(inner)?;
        seen.push(name.clone());
        if !is_closed {
            open.push(name);
        }
    }
    match (open.is_empty(), seen.is_empty()) {
        (true, false) => Ok(seen),
        _ => Err(format!("not closed: {open:?}")),
    }
}

fn is_text(text: &str, is_outside: bool) -> Result<(), String> {
    if is_outside && !text.trim().is_empty() {
        return Err(format!("text outside: {text:?}"));
    }
    if text.chars().any(|letter| letter.is_control() && letter != '\n') {
        return Err(format!("a control character in {text:?}"));
    }
    for piece in text.split('&').skip(1) {
        let entity = piece.split_once(';').map(|(entity, _)| entity);
        if !matches!(entity, Some("amp" | "lt" | "gt" | "quot")) {
            return Err(format!("a bare & in {text:?}"));
        }
    }
    Ok(())
}

/// The name of a start tag whose attributes are good.
fn start_tag(tag: &str) -> Result<String, String> {
    let is_name =
        |name: &str| name.bytes().all(|byte| byte.is_ascii_alphanumeric() || byte == b'-') && !name.is_empty();
    let (name, mut rest) = tag.split_once(' ').unwrap_or((tag, ""));
    let mut names = Vec::new();
    while !rest.is_empty() {
        let (attribute, value) = rest.split_once("=\"").ok_or(format!("an attribute without a value: {tag}"))?;
        let (value, after) = value.split_once('"').ok_or(format!("a value without an end: {tag}"))?;
        is_text(value, false)?;
        if !is_name(attribute) || names.contains(&attribute) {
            return Err(format!("a bad attribute: {tag}"));
        }
        names.push(attribute);
        rest = match after.strip_prefix(' ') {
            Some(next) => next,
            None if after.is_empty() => after,
            None => return Err(format!("no blank between attributes: {tag}")),
        };
    }
    is_name(name).then(|| name.into()).ok_or(format!("a bad name: {tag}"))
}

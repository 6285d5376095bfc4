//! `translate`: the body that a whole file becomes.

use crate::args::Request;
use crate::complaint::Complaint;
use crate::input;
use crate::json::Object;
use crate::problem::refused;
use crate::report::Report;
use crate::source::Source;

/// The body, or a line that says why the file can't be read. A bare body stays as it is.
pub fn run(request: &Request) -> Result<Report, String> {
    let text = input::text(&request.file)?;
    let name = input::name(&request.file);
    if !smtlib::is_whole_file(&text) {
        let report = printed(&String::from_utf8_lossy(&text), &[], request);
        return Ok(match request.json {
            true => report,
            false => report.also(&format!(
                "{name} is no whole file, so it is read as it stands"
            )),
        });
    }
    Ok(match smtlib::translate(&text) {
        Ok(body) => printed(&body.text, &body.renamed, request),
        Err(unknown) => {
            let source = Source {
                name: &name,
                text: &text,
            };
            refused(Complaint::unknown(&source, unknown), request, None)
        }
    })
}

fn printed(body: &str, renamed: &[(String, String)], request: &Request) -> Report {
    if request.json {
        let [new, old] = [0, 1].map(|side| {
            let names = renamed.iter().map(|(new, old)| [new, old][side].clone());
            names.collect::<Vec<String>>()
        });
        let object = Object::new()
            .text("translated", body)
            .texts("renamed", &new)
            .texts("file_names", &old);
        return Report::text(0, object.line());
    }
    let report = Report::text(0, body.to_owned());
    let stands = |(new, old): &(String, String)| format!("{new} stands for {old}");
    match renamed {
        [] => report,
        _ => report.also(&renamed.iter().map(stands).collect::<Vec<_>>().join(", ")),
    }
}

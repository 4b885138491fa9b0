// Papers whose sizes ECMA-376's list decides, and not the Rust (document 02, T-01). A driver includes this file at its root.

/// Width and height upright, and how many of their measure make ten inches.
fn standard_size(code: u16) -> Option<(i64, i64, i64)> {
    match code {
        12 => Some((250, 353, 254)),
        13 => Some((176, 250, 254)),
        24 => Some((17, 22, 10)),
        25 => Some((22, 34, 10)),
        26 => Some((34, 44, 10)),
        _ => None,
    }
}

/// To the nearest unit, in whole numbers: none of these sizes lies in the middle between two.
fn nearest_units(length: i64, in_ten_inches: i64) -> Fixed {
    Fixed::from_raw((length * 983_040 + in_ten_inches / 2) / in_ten_inches)
}

/// The standard's paper for its five codes, and for any other the Rust's.
fn paper_of(code: Option<u16>, landscape: bool, warnings: &mut PrintWarnings) -> Result<PaperGeometry, RenderError> {
    let Some((paper_code, (width, height, parts))) = code.and_then(|code| Some((code, standard_size(code)?))) else {
        return paper_geometry(code, landscape, warnings);
    };
    let (width, height) = (nearest_units(width, parts), nearest_units(height, parts));
    Ok(PaperGeometry {
        paper_code,
        width: if landscape { height } else { width },
        height: if landscape { width } else { height },
    })
}

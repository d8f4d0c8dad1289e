//! The operations in double precision, by the functions of classic.c. These test no length, so each is tested here.

extern "C" {
    fn classic_row_transform(samples: *const i16, n: usize, coefficients: *mut f64);

    fn classic_picture_transform(
        pixels: *const i16,
        width: usize,
        height: usize,
        pitch: usize,
        coefficients: *mut f64,
        line: *mut f64,
    );

    fn classic_row_zoom(coefficients: *const f64, n: usize, factor: usize, values: *mut f64);

    fn classic_row_value(
        coefficients: *const f64,
        n: usize,
        k: usize,
        j: usize,
        factor: usize,
    ) -> f64;

    fn classic_picture_value(
        coefficients: *const f64,
        width: usize,
        height: usize,
        pitch: usize,
        kx: usize,
        jx: usize,
        ky: usize,
        jy: usize,
        factor: usize,
    ) -> f64;

    fn classic_picture_enlarge(
        coefficients: *const f64,
        width: usize,
        height: usize,
        pitch: usize,
        factor: usize,
        values: *mut f64,
        room: *mut f64,
    );
}

pub fn row_transform(samples: &[i16], coefficients: &mut [f64]) {
    assert!(!samples.is_empty() && coefficients.len() == samples.len());
    // SAFETY: the pointers are those of slices of the length that is passed, and the slice that is written is lent mutably.
    unsafe {
        classic_row_transform(samples.as_ptr(), samples.len(), coefficients.as_mut_ptr());
    }
}

pub fn picture_transform(
    pixels: &[i16],
    width: usize,
    height: usize,
    pitch: usize,
    coefficients: &mut [f64],
    line: &mut [f64],
) {
    assert!(width > 0 && height > 0 && pitch >= width);
    assert!(pixels.len() >= (height - 1) * pitch + width);
    assert!(coefficients.len() == width * height && line.len() == height);
    // SAFETY: as above, with the lengths that are tested; the last pixel is number (height - 1) * pitch + width - 1.
    unsafe {
        classic_picture_transform(
            pixels.as_ptr(),
            width,
            height,
            pitch,
            coefficients.as_mut_ptr(),
            line.as_mut_ptr(),
        );
    }
}

pub fn row_zoom(coefficients: &[f64], factor: usize, values: &mut [f64]) {
    assert!(!coefficients.is_empty() && (1..=16).contains(&factor));
    assert!(values.len() == (coefficients.len() - 1) * factor + 1);
    // SAFETY: as above, with one value for each position of the zoom.
    unsafe {
        classic_row_zoom(
            coefficients.as_ptr(),
            coefficients.len(),
            factor,
            values.as_mut_ptr(),
        );
    }
}

/// What is read depends on k alone, so that only k is tested: the test is in the time of each value.
pub fn row_value(coefficients: &[f64], (k, j): (usize, usize), factor: usize) -> f64 {
    assert!(k < coefficients.len());
    // SAFETY: as above, and k is a place of the slice.
    unsafe { classic_row_value(coefficients.as_ptr(), coefficients.len(), k, j, factor) }
}

pub fn picture_value(
    coefficients: &[f64],
    width: usize,
    height: usize,
    pitch: usize,
    x: (usize, usize),
    y: (usize, usize),
    factor: usize,
) -> f64 {
    assert!(pitch == width && coefficients.len() == width * height && x.0 < width && y.0 < height);
    // SAFETY: as above, with a place along each side.
    unsafe {
        classic_picture_value(
            coefficients.as_ptr(),
            width,
            height,
            pitch,
            x.0,
            x.1,
            y.0,
            y.1,
            factor,
        )
    }
}

pub fn picture_enlarge(
    coefficients: &[f64],
    width: usize,
    height: usize,
    pitch: usize,
    factor: usize,
    values: &mut [f64],
    room: &mut [f64],
) {
    assert!(width > 0 && height > 0 && pitch == width && (1..=16).contains(&factor));
    let across = (width - 1) * factor + 1;
    assert!(coefficients.len() == width * height && room.len() == 4 * across);
    assert!(values.len() == across * ((height - 1) * factor + 1));
    // SAFETY: as above, with one value for each position of the enlarged picture.
    unsafe {
        classic_picture_enlarge(
            coefficients.as_ptr(),
            width,
            height,
            pitch,
            factor,
            values.as_mut_ptr(),
            room.as_mut_ptr(),
        );
    }
}

//! 4.1: the arithmetic operations, on words of 16 bits (i16) and long words of 32 bits (i32).

/// 4.1, "overflow control and saturation": a word stops at the end of its range.
fn saturate(result: i32) -> i16 {
    if result > 32767 {
        32767
    } else if result < -32768 {
        -32768
    } else {
        result as i16
    }
}

/// 4.1, "overflow control and saturation": a long word stops at the end of its range.
fn L_saturate(result: i64) -> i32 {
    if result > 2147483647 {
        2147483647
    } else if result < -2147483648 {
        -2147483648
    } else {
        result as i32
    }
}

/// 4.1: add(var1, var2).
pub fn add(var1: i16, var2: i16) -> i16 {
    saturate(i32::from(var1) + i32::from(var2))
}

/// 4.1: sub(var1, var2).
pub fn sub(var1: i16, var2: i16) -> i16 {
    saturate(i32::from(var1) - i32::from(var2))
}

/// 4.1: mult(var1, var2) = (var1 times var2) >> 15.
pub fn mult(var1: i16, var2: i16) -> i16 {
    if var1 == -32768 && var2 == -32768 {
        return 32767;
    }
    extract((i32::from(var1) * i32::from(var2)) >> 15)
}

/// 4.1: mult_r(var1, var2) = ((var1 times var2) + 16384) >> 15.
pub fn mult_r(var1: i16, var2: i16) -> i16 {
    if var1 == -32768 && var2 == -32768 {
        return 32767;
    }
    extract((i32::from(var1) * i32::from(var2) + 16384) >> 15)
}

/// 4.1: abs(var1).
pub fn abs(var1: i16) -> i16 {
    if var1 == -32768 {
        32767
    } else if var1 < 0 {
        -var1
    } else {
        var1
    }
}

/// 4.1 and the NOTE of 4.2.5: div(num, denum), with denum >= num >= 0.
pub fn div(num: i16, denum: i16) -> i16 {
    // House rules, 'Arithmetic': the loop would give 32767 for 0 by 0.
    if num == 0 {
        return 0;
    }
    let mut L_num = i32::from(num);
    let L_denum = i32::from(denum);
    let mut div = 0;
    for _k in 0..=14 {
        div = shl(div, 1);
        L_num = L_shl(L_num, 1);
        if L_num >= L_denum {
            L_num = L_sub(L_num, L_denum);
            div = add(div, 1);
        }
    }
    div
}

/// 4.1: L_mult(var1, var2) = (var1 times var2) << 1; -32768 by -32768 does not occur.
pub fn L_mult(var1: i16, var2: i16) -> i32 {
    i32::from(var1) * i32::from(var2) * 2
}

/// 4.1: L_add(L_var1, L_var2).
pub fn L_add(L_var1: i32, L_var2: i32) -> i32 {
    L_saturate(i64::from(L_var1) + i64::from(L_var2))
}

/// 4.1: L_sub(L_var1, L_var2).
pub fn L_sub(L_var1: i32, L_var2: i32) -> i32 {
    L_saturate(i64::from(L_var1) - i64::from(L_var2))
}

/// 4.1: norm(L_var1), of positive values only: every caller has turned 0 away.
pub fn norm(L_var1: i32) -> i16 {
    let mut L_norm_var1 = L_var1;
    let mut shifts = 0;
    while L_norm_var1 < 1073741824 {
        L_norm_var1 = L_shl(L_norm_var1, 1);
        shifts = add(shifts, 1);
    }
    shifts
}

/// 4.1: var1 << n of a word, zero fill; what leaves the 16 bits is lost.
pub fn shl(var1: i16, n: i16) -> i16 {
    if n < 0 {
        return shr(var1, -n);
    }
    (i32::from(var1) << n) as i16
}

/// 4.1: var1 >> n of a word, sign extension: it rounds down.
pub fn shr(var1: i16, n: i16) -> i16 {
    if n < 0 {
        return shl(var1, -n);
    }
    var1 >> n
}

/// 4.1: L_var1 << n of a long word, zero fill; what leaves the 32 bits is lost.
pub fn L_shl(L_var1: i32, n: i16) -> i32 {
    if n < 0 {
        return L_shr(L_var1, -n);
    }
    (i64::from(L_var1) << n) as i32
}

/// 4.1: L_var1 >> n of a long word, sign extension: it rounds down.
pub fn L_shr(L_var1: i32, n: i16) -> i32 {
    if n < 0 {
        return L_shl(L_var1, -n);
    }
    L_var1 >> n
}

/// 4.1: var2 = L_var1, the 16 low bits.
pub fn extract(L_var1: i32) -> i16 {
    L_var1 as i16
}

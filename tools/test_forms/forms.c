typedef struct {
    double at[3];
} f64_x3;

typedef struct {
    f64_x3 numbers;
    uint64_t count;
} forms_Stack_3;

typedef struct {
    double at[5];
} f64_x5;

typedef struct {
    f64_x5 numbers;
    uint64_t count;
} forms_Stack_5;

typedef struct {
    double at[8];
} f64_x8;

typedef struct {
    uint8_t at[4];
} u8_x4;

typedef struct {
    const double *at;
    uint64_t count;
} slice_f64;

typedef struct {
    double a;
    double b;
} forms_Pair;

typedef struct {
    const forms_Pair *at;
    uint64_t count;
} slice_forms_Pair;

typedef struct {
    enum {
        forms_Fault_None,
        forms_Fault_Value,
        forms_Fault_Place,
    } tag;
    union {
        uint32_t Value;
        struct { uint32_t part0; uint64_t part1; } Place;
    } as;
} forms_Fault;

typedef enum {
    forms_Kind_Bare,
    forms_Kind_Coated,
    forms_Kind_Thick,
} forms_Kind;

typedef struct {
    uint32_t number;
    uint64_t place;
    forms_Kind kind;
} forms_Refusal;

// A value, or none.
typedef struct {
    enum {
        option_forms_Kind_None,
        option_forms_Kind_Some,
    } tag;
    union {
        forms_Kind Some;
    } as;
} option_forms_Kind;

// What was asked for, or why it is refused.
typedef struct {
    enum {
        result_u32_forms_Refusal_Ok,
        result_u32_forms_Refusal_Err,
    } tag;
    union {
        uint32_t Ok;
        forms_Refusal Err;
    } as;
} result_u32_forms_Refusal;

// What was asked for, or why it is refused.
typedef struct {
    enum {
        result_unit_forms_Refusal_Ok,
        result_unit_forms_Refusal_Err,
    } tag;
    union {
        forms_Refusal Err;
    } as;
} result_unit_forms_Refusal;

typedef struct {
    const uint8_t *at;
    uint64_t count;
} slice_u8;

// A value, or none.
typedef struct {
    enum {
        option_u64_None,
        option_u64_Some,
    } tag;
    union {
        uint64_t Some;
    } as;
} option_u64;

// A value, or none.
typedef struct {
    enum {
        option_u32_None,
        option_u32_Some,
    } tag;
    union {
        uint32_t Some;
    } as;
} option_u32;

typedef struct {
    double at[4];
} f64_x4;

typedef struct {
    uint8_t at[3];
} u8_x3;

typedef struct {
    double *at;
    uint64_t count;
} slice_mut_f64;

// What was asked for, or why it is refused.
typedef struct {
    enum {
        result_option_u32_forms_Refusal_Ok,
        result_option_u32_forms_Refusal_Err,
    } tag;
    union {
        option_u32 Ok;
        forms_Refusal Err;
    } as;
} result_option_u32_forms_Refusal;

// Two values.
typedef struct {
    uint32_t part0;
    bool part1;
} pair_u32_bool;

// What was asked for, or why it is refused.
typedef struct {
    enum {
        result_u32_forms_Kind_Ok,
        result_u32_forms_Kind_Err,
    } tag;
    union {
        uint32_t Ok;
        forms_Kind Err;
    } as;
} result_u32_forms_Kind;

// ==== forms

static forms_Stack_3 forms_Stack_of_3(double x) {
    f64_x3 value;
    for (size_t each = 0; each < 3; each++) {
        value.at[each] = x;
    }
    return (forms_Stack_3){.numbers = value, .count = 0};
}

static forms_Stack_5 forms_Stack_of_5(double x) {
    f64_x5 value;
    for (size_t each = 0; each < 5; each++) {
        value.at[each] = x;
    }
    return (forms_Stack_5){.numbers = value, .count = 0};
}

static double forms_Stack_top_3(const forms_Stack_3 *self) {
    if (self->count < 3) {
        return self->numbers.at[self->count];
    }
    return 0.0;
}

static double forms_Stack_top_5(const forms_Stack_5 *self) {
    if (self->count < 5) {
        return self->numbers.at[self->count];
    }
    return 0.0;
}

static double forms_most_f64_8(const f64_x8 *xs, double other) {
    double found = other;
    uint64_t i = 0;
    while (i < 8) {
        found = xs->at[i];
        i = i + 1;
    }
    return found;
}

static uint8_t forms_most_u8_4(const u8_x4 *xs, uint8_t other) {
    uint8_t found = other;
    uint64_t i = 0;
    while (i < 4) {
        found = xs->at[i];
        i = i + 1;
    }
    return found;
}

static double forms_F64Area_area(const double *self) {
    return *self;
}

static double forms_sum_of_f64(slice_f64 xs) {
    double s = 0.0;
    uint64_t x_index = 0;
    while (x_index < xs.count) {
        const double *x = &xs.at[x_index];
        s = s + forms_F64Area_area(x);
        x_index = x_index + 1;
    }
    return s;
}

static double forms_PairArea_area(const forms_Pair *self) {
    return self->a * self->b;
}

static double forms_sum_of_forms_Pair(slice_forms_Pair xs) {
    double s = 0.0;
    uint64_t x_index = 0;
    while (x_index < xs.count) {
        const forms_Pair *x = &xs.at[x_index];
        s = s + forms_PairArea_area(x);
        x_index = x_index + 1;
    }
    return s;
}

static uint32_t forms_Fault_number(forms_Fault self) {
    switch (self.tag) {
    case forms_Fault_None:
        return 0;
    case forms_Fault_Value:
    {
        uint32_t number = self.as.Value;
        return number;
    }
    default: // forms_Fault_Place
    {
        uint32_t n = self.as.Place.part0;
        return n;
    }
    }
}

static bool forms_same_fault(forms_Fault a, forms_Fault b) {
    if (a.tag != b.tag) {
        return false;
    }
    switch (a.tag) {
    case forms_Fault_Value:
        if (b.tag == forms_Fault_Value) {
            return a.as.Value == b.as.Value;
        }
        return true;
    case forms_Fault_Place:
        if (b.tag == forms_Fault_Place) {
            return a.as.Place.part0 == b.as.Place.part0 && a.as.Place.part1 == b.as.Place.part1;
        }
        return true;
    default: // forms_Fault_None
        return true;
    }
}

static bool forms_other_refusal(forms_Refusal a, const forms_Refusal *b) {
    return !(a.number == b->number && a.place == b->place && a.kind == b->kind);
}

static bool forms_same_option(option_forms_Kind a) {
    if (a.tag == option_forms_Kind_Some) {
        return a.as.Some == forms_Kind_Bare;
    }
    return false;
}

static result_u32_forms_Refusal forms_half(uint32_t x) {
    if (x < 10) {
        return (result_u32_forms_Refusal){.tag = result_u32_forms_Refusal_Ok, .as.Ok = x};
    }
    return (result_u32_forms_Refusal){.tag = result_u32_forms_Refusal_Err,
            .as.Err = {.number = 1, .place = 0, .kind = forms_Kind_Bare}};
}

static result_unit_forms_Refusal forms_checked(uint32_t x) {
    result_u32_forms_Refusal value = forms_half(x);
    if (value.tag == result_u32_forms_Refusal_Err) {
        return (result_unit_forms_Refusal){.tag = result_unit_forms_Refusal_Err, .as.Err = value.as.Err};
    }
    return (result_unit_forms_Refusal){.tag = result_unit_forms_Refusal_Ok};
}

static result_u32_forms_Refusal forms_quarter(uint32_t x) {
    result_unit_forms_Refusal value = forms_checked(x);
    if (value.tag == result_unit_forms_Refusal_Err) {
        return (result_u32_forms_Refusal){.tag = result_u32_forms_Refusal_Err, .as.Err = value.as.Err};
    }
    result_u32_forms_Refusal value_2 = forms_half(x);
    if (value_2.tag == result_u32_forms_Refusal_Err) {
        return (result_u32_forms_Refusal){.tag = result_u32_forms_Refusal_Err, .as.Err = value_2.as.Err};
    }
    uint32_t y = value_2.as.Ok;
    return forms_half(y);
}

static option_u64 forms_first(slice_u8 xs) {
    uint64_t i = 0;
    while (i < xs.count) {
        uint8_t x = xs.at[i];
        if (x == 32) {
            return (option_u64){.tag = option_u64_Some, .as.Some = i};
        }
        i = i + 1;
    }
    return (option_u64){.tag = option_u64_None};
}

static option_u32 forms_firsts(slice_u8 xs) {
    option_u64 value = forms_first(xs);
    if (value.tag == option_u64_None) {
        return (option_u32){.tag = option_u32_None};
    }
    uint64_t i = value.as.Some;
    if (i < 9) {
        return (option_u32){.tag = option_u32_Some, .as.Some = (uint32_t)i};
    }
    return (option_u32){.tag = option_u32_None};
}

static uint64_t forms_last(slice_u8 xs) {
    uint64_t i = xs.count;
    while (0 < i) {
        i = i - 1;
        if (xs.at[i] == 32) {
            return i;
        }
    }
    return xs.count;
}

static double forms_count_slice(slice_f64 xs) {
    double s = 0.0;
    uint64_t x_index = 0;
    while (x_index < xs.count) {
        double x = xs.at[x_index];
        s = s + x;
        x_index = x_index + 1;
    }
    return s;
}

static double forms_count_by_value(f64_x4 xs) {
    double s = 0.0;
    f64_x4 value = xs;
    uint64_t x_index = 0;
    while (x_index < 4) {
        double x = value.at[x_index];
        s = s + x;
        x_index = x_index + 1;
    }
    return s;
}

static bool forms_isok(uint32_t x) {
    bool value = forms_half(x).tag == result_u32_forms_Refusal_Ok
            && forms_half(x).tag != result_u32_forms_Refusal_Err;
    if (value) {
        result_u32_forms_Refusal value_2 = forms_half(x);
        uint32_t value_3;
        if (value_2.tag == result_u32_forms_Refusal_Ok) {
            value_3 = value_2.as.Ok;
        } else {
            value_3 = 3;
        }
        value = value_3 < 4;
    }
    return value;
}

static uint64_t forms_iflet(slice_u8 xs) {
    option_u64 value = forms_first(xs);
    if (value.tag == option_u64_Some) {
        uint64_t i = value.as.Some;
        return i;
    }
    option_u32 value_2 = forms_firsts(xs);
    if (value_2.tag == option_u32_None) {
        return 3;
    }
    uint32_t n = value_2.as.Some;
    return (uint64_t)n;
}

static bool forms_bare(forms_Kind a) {
    return a != forms_Kind_Coated;
}

static double forms_two(const u8_x4 *a, const f64_x8 *b) {
    uint8_t n = forms_most_u8_4(a, 7);
    if (n < 3) {
        return forms_most_f64_8(b, 1.5);
    }
    return 0.0;
}

static uint64_t forms_ranged(uint64_t n) {
    uint64_t s = 0;
    uint64_t i = 3;
    while (i < n) {
        if (i == 7) {
            i = i + 1;
            continue;
        }
        if (100 < s) {
            break;
        }
        s = i;
        i = i + 1;
    }
    uint32_t round = 0;
    while (round < 5) {
        s = s / 2;
        round = round + 1;
    }
    return s;
}

static uint64_t forms_breaks(slice_u8 xs, const u8_x3 *ys) {
    uint64_t n = 0;
    uint64_t x_index = 0;
    while (x_index < xs.count) {
        uint8_t x = xs.at[x_index];
        if (x == 32) {
            x_index = x_index + 1;
            continue;
        }
        if (x == 33) {
            break;
        }
        n = (uint64_t)x;
        x_index = x_index + 1;
    }
    uint64_t i = 0;
    while (i < 3) {
        uint8_t y = ys->at[i];
        if (y == 1) {
            i = i + 1;
            continue;
        }
        if (y == 2) {
            break;
        }
        n = i;
        i = i + 1;
    }
    return n;
}

static void forms_written(slice_mut_f64 xs, f64_x4 *zs) {
    uint64_t x_index = 0;
    while (x_index < xs.count) {
        xs.at[x_index] = 1.0;
        x_index = x_index + 1;
    }
    uint64_t z_index = 0;
    while (z_index < 4) {
        zs->at[z_index] = 2.0;
        z_index = z_index + 1;
    }
}

static double forms_structs(slice_forms_Pair xs) {
    double s = 0.0;
    uint64_t x_index = 0;
    while (x_index < xs.count) {
        const forms_Pair *x = &xs.at[x_index];
        s = s + x->a * x->b;
        x_index = x_index + 1;
    }
    return s;
}

static result_option_u32_forms_Refusal forms_nested(uint32_t x) {
    result_u32_forms_Refusal value = forms_half(x);
    if (value.tag == result_u32_forms_Refusal_Ok) {
        uint32_t y = value.as.Ok;
        return (result_option_u32_forms_Refusal){.tag = result_option_u32_forms_Refusal_Ok,
                .as.Ok = {.tag = option_u32_Some, .as.Some = y}};
    }
    forms_Refusal e = value.as.Err;
    return (result_option_u32_forms_Refusal){.tag = result_option_u32_forms_Refusal_Err, .as.Err = e};
}

static pair_u32_bool forms_both(uint32_t x) {
    return (pair_u32_bool){.part0 = x, .part1 = true};
}

static uint32_t forms_tuple(uint32_t x) {
    pair_u32_bool value = forms_both(x);
    uint32_t a = value.part0;
    bool b = value.part1;
    if (b) {
        return a;
    }
    return 0;
}

static uint32_t forms_refed(const option_u32 *a) {
    if (a->tag == option_u32_Some) {
        uint32_t x = a->as.Some;
        return x;
    }
    return 1;
}

static double forms_areas(slice_forms_Pair xs, slice_f64 ys) {
    return forms_sum_of_forms_Pair(xs) + forms_sum_of_f64(ys);
}

static forms_Refusal forms_RefusalFromKind_from(forms_Kind kind) {
    return (forms_Refusal){.number = 7, .place = 0, .kind = kind};
}

static result_u32_forms_Kind forms_kinds(uint32_t x) {
    if (x < 4) {
        return (result_u32_forms_Kind){.tag = result_u32_forms_Kind_Ok, .as.Ok = x};
    }
    return (result_u32_forms_Kind){.tag = result_u32_forms_Kind_Err, .as.Err = forms_Kind_Thick};
}

static result_u32_forms_Refusal forms_converted(uint32_t x) {
    result_u32_forms_Kind value = forms_kinds(x);
    if (value.tag == result_u32_forms_Kind_Err) {
        return (result_u32_forms_Refusal){.tag = result_u32_forms_Refusal_Err,
                .as.Err = forms_RefusalFromKind_from(value.as.Err)};
    }
    uint32_t y = value.as.Ok;
    return (result_u32_forms_Refusal){.tag = result_u32_forms_Refusal_Ok, .as.Ok = y};
}

static double forms_stacks(double x) {
    forms_Stack_3 s = forms_Stack_of_3(x);
    forms_Stack_5 t = forms_Stack_of_5(x);
    return forms_Stack_top_3(&s) + forms_Stack_top_5(&t);
}

static result_u32_forms_Refusal forms_okor(option_u32 x) {
    if (x.tag == option_u32_Some) {
        return (result_u32_forms_Refusal){.tag = result_u32_forms_Refusal_Ok, .as.Ok = x.as.Some};
    }
    return (result_u32_forms_Refusal){.tag = result_u32_forms_Refusal_Err,
            .as.Err = {.number = 1, .place = 2, .kind = forms_Kind_Bare}};
}

static uint32_t forms_guarded(option_u32 x) {
    if (x.tag == option_u32_Some) {
        uint32_t y = x.as.Some;
        if (y < 3) {
            return y;
        }
        return 4;
    }
    return 5;
}

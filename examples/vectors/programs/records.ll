; Structures in arrays in structures, packed and not, with the offsets that their layout gives.
%packed = type <{ i8, i32, i16 }>
%outer = type { i8, [3 x %packed], { i16, i64 }, ptr }

@"the record" = internal global %outer { i8 -1, [3 x %packed] [%packed <{ i8 1, i32 -2, i16 3 }>, %packed <{ i8 4, i32 -5, i16 6 }>, %packed <{ i8 7, i32 -8, i16 9 }>], { i16, i64 } { i16 10, i64 -11 }, ptr @"the record" }, align 8
@bytes = internal constant <{ i8, i16, i8 }> <{ i8 16, i16 8224, i8 48 }>, align 1

; A member of one of the three packed structures.
define i32 @packed(i64 %which, i8 %member) {
entry:
  %at = getelementptr inbounds %outer, ptr @"the record", i64 0, i32 1, i64 %which
  switch i8 %member, label %last [
    i8 0, label %first
    i8 1, label %middle
  ]
first:
  %a = load i8, ptr %at, align 1
  %a.wide = sext i8 %a to i32
  ret i32 %a.wide
middle:
  %b.at = getelementptr inbounds %packed, ptr %at, i64 0, i32 1
  %b = load i32, ptr %b.at, align 1
  ret i32 %b
last:
  %c.at = getelementptr inbounds %packed, ptr %at, i64 0, i32 2
  %c = load i16, ptr %c.at, align 1
  %c.wide = sext i16 %c to i32
  ret i32 %c.wide
}

; What stands so many bytes into the record, for bytes that are no part of its pointer.
define i8 @byte(i64 %place) {
  %at = getelementptr inbounds i8, ptr @"the record", i64 %place
  %byte = load i8, ptr %at, align 1
  ret i8 %byte
}

; The pointer at its end leads to the record itself.
define i64 @through_the_pointer() {
  %pointer.at = getelementptr inbounds %outer, ptr @"the record", i64 0, i32 3
  %pointer = load ptr, ptr %pointer.at, align 8
  %"a number's place" = getelementptr inbounds %outer, ptr %pointer, i64 0, i32 2, i32 1
  %old = load i64, ptr %"a number's place", align 8
  %new = mul nsw i64 %old, -1000000007
  store i64 %new, ptr %"a number's place", align 8
  %again = load i64, ptr getelementptr inbounds (%outer, ptr @"the record", i64 0, i32 2, i32 1), align 8
  ret i64 %again
}

; Two bytes across two members.
define i16 @across() {
  %across = load i16, ptr getelementptr (i8, ptr getelementptr (i8, ptr @bytes, i64 -1), i64 3), align 1
  ret i16 %across
}

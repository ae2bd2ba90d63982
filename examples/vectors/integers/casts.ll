; Each cast between two of the widths 1, 7, 8, 33 and 64. Made by examples/vectors/make.
define i7 @zext_i1_i7(i1 %a) {
  %r = zext i1 %a to i7
  ret i7 %r
}
define i7 @sext_i1_i7(i1 %a) {
  %r = sext i1 %a to i7
  ret i7 %r
}
define i1 @trunc_i7_i1(i7 %a) {
  %r = trunc i7 %a to i1
  ret i1 %r
}
define i8 @zext_i1_i8(i1 %a) {
  %r = zext i1 %a to i8
  ret i8 %r
}
define i8 @sext_i1_i8(i1 %a) {
  %r = sext i1 %a to i8
  ret i8 %r
}
define i1 @trunc_i8_i1(i8 %a) {
  %r = trunc i8 %a to i1
  ret i1 %r
}
define i33 @zext_i1_i33(i1 %a) {
  %r = zext i1 %a to i33
  ret i33 %r
}
define i33 @sext_i1_i33(i1 %a) {
  %r = sext i1 %a to i33
  ret i33 %r
}
define i1 @trunc_i33_i1(i33 %a) {
  %r = trunc i33 %a to i1
  ret i1 %r
}
define i64 @zext_i1_i64(i1 %a) {
  %r = zext i1 %a to i64
  ret i64 %r
}
define i64 @sext_i1_i64(i1 %a) {
  %r = sext i1 %a to i64
  ret i64 %r
}
define i1 @trunc_i64_i1(i64 %a) {
  %r = trunc i64 %a to i1
  ret i1 %r
}
define i8 @zext_i7_i8(i7 %a) {
  %r = zext i7 %a to i8
  ret i8 %r
}
define i8 @sext_i7_i8(i7 %a) {
  %r = sext i7 %a to i8
  ret i8 %r
}
define i7 @trunc_i8_i7(i8 %a) {
  %r = trunc i8 %a to i7
  ret i7 %r
}
define i33 @zext_i7_i33(i7 %a) {
  %r = zext i7 %a to i33
  ret i33 %r
}
define i33 @sext_i7_i33(i7 %a) {
  %r = sext i7 %a to i33
  ret i33 %r
}
define i7 @trunc_i33_i7(i33 %a) {
  %r = trunc i33 %a to i7
  ret i7 %r
}
define i64 @zext_i7_i64(i7 %a) {
  %r = zext i7 %a to i64
  ret i64 %r
}
define i64 @sext_i7_i64(i7 %a) {
  %r = sext i7 %a to i64
  ret i64 %r
}
define i7 @trunc_i64_i7(i64 %a) {
  %r = trunc i64 %a to i7
  ret i7 %r
}
define i33 @zext_i8_i33(i8 %a) {
  %r = zext i8 %a to i33
  ret i33 %r
}
define i33 @sext_i8_i33(i8 %a) {
  %r = sext i8 %a to i33
  ret i33 %r
}
define i8 @trunc_i33_i8(i33 %a) {
  %r = trunc i33 %a to i8
  ret i8 %r
}
define i64 @zext_i8_i64(i8 %a) {
  %r = zext i8 %a to i64
  ret i64 %r
}
define i64 @sext_i8_i64(i8 %a) {
  %r = sext i8 %a to i64
  ret i64 %r
}
define i8 @trunc_i64_i8(i64 %a) {
  %r = trunc i64 %a to i8
  ret i8 %r
}
define i64 @zext_i33_i64(i33 %a) {
  %r = zext i33 %a to i64
  ret i64 %r
}
define i64 @sext_i33_i64(i33 %a) {
  %r = sext i33 %a to i64
  ret i64 %r
}
define i33 @trunc_i64_i33(i64 %a) {
  %r = trunc i64 %a to i33
  ret i33 %r
}

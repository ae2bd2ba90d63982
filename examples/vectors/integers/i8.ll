; Each operation at 8 bits. Made by examples/vectors/make.
define i8 @add_i8(i8 %a, i8 %b) {
  %r = add i8 %a, %b
  ret i8 %r
}
define i8 @sub_i8(i8 %a, i8 %b) {
  %r = sub i8 %a, %b
  ret i8 %r
}
define i8 @mul_i8(i8 %a, i8 %b) {
  %r = mul i8 %a, %b
  ret i8 %r
}
define i8 @udiv_i8(i8 %a, i8 %b) {
  %r = udiv i8 %a, %b
  ret i8 %r
}
define i8 @sdiv_i8(i8 %a, i8 %b) {
  %r = sdiv i8 %a, %b
  ret i8 %r
}
define i8 @urem_i8(i8 %a, i8 %b) {
  %r = urem i8 %a, %b
  ret i8 %r
}
define i8 @srem_i8(i8 %a, i8 %b) {
  %r = srem i8 %a, %b
  ret i8 %r
}
define i8 @shl_i8(i8 %a, i8 %b) {
  %r = shl i8 %a, %b
  ret i8 %r
}
define i8 @lshr_i8(i8 %a, i8 %b) {
  %r = lshr i8 %a, %b
  ret i8 %r
}
define i8 @ashr_i8(i8 %a, i8 %b) {
  %r = ashr i8 %a, %b
  ret i8 %r
}
define i8 @and_i8(i8 %a, i8 %b) {
  %r = and i8 %a, %b
  ret i8 %r
}
define i8 @or_i8(i8 %a, i8 %b) {
  %r = or i8 %a, %b
  ret i8 %r
}
define i8 @xor_i8(i8 %a, i8 %b) {
  %r = xor i8 %a, %b
  ret i8 %r
}
define i1 @icmp_eq_i8(i8 %a, i8 %b) {
  %r = icmp eq i8 %a, %b
  ret i1 %r
}
define i1 @icmp_ne_i8(i8 %a, i8 %b) {
  %r = icmp ne i8 %a, %b
  ret i1 %r
}
define i1 @icmp_ugt_i8(i8 %a, i8 %b) {
  %r = icmp ugt i8 %a, %b
  ret i1 %r
}
define i1 @icmp_uge_i8(i8 %a, i8 %b) {
  %r = icmp uge i8 %a, %b
  ret i1 %r
}
define i1 @icmp_ult_i8(i8 %a, i8 %b) {
  %r = icmp ult i8 %a, %b
  ret i1 %r
}
define i1 @icmp_ule_i8(i8 %a, i8 %b) {
  %r = icmp ule i8 %a, %b
  ret i1 %r
}
define i1 @icmp_sgt_i8(i8 %a, i8 %b) {
  %r = icmp sgt i8 %a, %b
  ret i1 %r
}
define i1 @icmp_sge_i8(i8 %a, i8 %b) {
  %r = icmp sge i8 %a, %b
  ret i1 %r
}
define i1 @icmp_slt_i8(i8 %a, i8 %b) {
  %r = icmp slt i8 %a, %b
  ret i1 %r
}
define i1 @icmp_sle_i8(i8 %a, i8 %b) {
  %r = icmp sle i8 %a, %b
  ret i1 %r
}
define i8 @select_i8(i1 %c, i8 %a, i8 %b) {
  %r = select i1 %c, i8 %a, i8 %b
  ret i8 %r
}

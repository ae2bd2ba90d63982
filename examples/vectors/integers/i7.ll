; Each operation at 7 bits. Made by examples/vectors/make.
define i7 @add_i7(i7 %a, i7 %b) {
  %r = add i7 %a, %b
  ret i7 %r
}
define i7 @sub_i7(i7 %a, i7 %b) {
  %r = sub i7 %a, %b
  ret i7 %r
}
define i7 @mul_i7(i7 %a, i7 %b) {
  %r = mul i7 %a, %b
  ret i7 %r
}
define i7 @udiv_i7(i7 %a, i7 %b) {
  %r = udiv i7 %a, %b
  ret i7 %r
}
define i7 @sdiv_i7(i7 %a, i7 %b) {
  %r = sdiv i7 %a, %b
  ret i7 %r
}
define i7 @urem_i7(i7 %a, i7 %b) {
  %r = urem i7 %a, %b
  ret i7 %r
}
define i7 @srem_i7(i7 %a, i7 %b) {
  %r = srem i7 %a, %b
  ret i7 %r
}
define i7 @shl_i7(i7 %a, i7 %b) {
  %r = shl i7 %a, %b
  ret i7 %r
}
define i7 @lshr_i7(i7 %a, i7 %b) {
  %r = lshr i7 %a, %b
  ret i7 %r
}
define i7 @ashr_i7(i7 %a, i7 %b) {
  %r = ashr i7 %a, %b
  ret i7 %r
}
define i7 @and_i7(i7 %a, i7 %b) {
  %r = and i7 %a, %b
  ret i7 %r
}
define i7 @or_i7(i7 %a, i7 %b) {
  %r = or i7 %a, %b
  ret i7 %r
}
define i7 @xor_i7(i7 %a, i7 %b) {
  %r = xor i7 %a, %b
  ret i7 %r
}
define i1 @icmp_eq_i7(i7 %a, i7 %b) {
  %r = icmp eq i7 %a, %b
  ret i1 %r
}
define i1 @icmp_ne_i7(i7 %a, i7 %b) {
  %r = icmp ne i7 %a, %b
  ret i1 %r
}
define i1 @icmp_ugt_i7(i7 %a, i7 %b) {
  %r = icmp ugt i7 %a, %b
  ret i1 %r
}
define i1 @icmp_uge_i7(i7 %a, i7 %b) {
  %r = icmp uge i7 %a, %b
  ret i1 %r
}
define i1 @icmp_ult_i7(i7 %a, i7 %b) {
  %r = icmp ult i7 %a, %b
  ret i1 %r
}
define i1 @icmp_ule_i7(i7 %a, i7 %b) {
  %r = icmp ule i7 %a, %b
  ret i1 %r
}
define i1 @icmp_sgt_i7(i7 %a, i7 %b) {
  %r = icmp sgt i7 %a, %b
  ret i1 %r
}
define i1 @icmp_sge_i7(i7 %a, i7 %b) {
  %r = icmp sge i7 %a, %b
  ret i1 %r
}
define i1 @icmp_slt_i7(i7 %a, i7 %b) {
  %r = icmp slt i7 %a, %b
  ret i1 %r
}
define i1 @icmp_sle_i7(i7 %a, i7 %b) {
  %r = icmp sle i7 %a, %b
  ret i1 %r
}
define i7 @select_i7(i1 %c, i7 %a, i7 %b) {
  %r = select i1 %c, i7 %a, i7 %b
  ret i7 %r
}

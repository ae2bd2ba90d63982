; Each operation at 1 bit. Made by examples/vectors/make.
define i1 @add_i1(i1 %a, i1 %b) {
  %r = add i1 %a, %b
  ret i1 %r
}
define i1 @sub_i1(i1 %a, i1 %b) {
  %r = sub i1 %a, %b
  ret i1 %r
}
define i1 @mul_i1(i1 %a, i1 %b) {
  %r = mul i1 %a, %b
  ret i1 %r
}
define i1 @udiv_i1(i1 %a, i1 %b) {
  %r = udiv i1 %a, %b
  ret i1 %r
}
define i1 @sdiv_i1(i1 %a, i1 %b) {
  %r = sdiv i1 %a, %b
  ret i1 %r
}
define i1 @urem_i1(i1 %a, i1 %b) {
  %r = urem i1 %a, %b
  ret i1 %r
}
define i1 @srem_i1(i1 %a, i1 %b) {
  %r = srem i1 %a, %b
  ret i1 %r
}
define i1 @shl_i1(i1 %a, i1 %b) {
  %r = shl i1 %a, %b
  ret i1 %r
}
define i1 @lshr_i1(i1 %a, i1 %b) {
  %r = lshr i1 %a, %b
  ret i1 %r
}
define i1 @ashr_i1(i1 %a, i1 %b) {
  %r = ashr i1 %a, %b
  ret i1 %r
}
define i1 @and_i1(i1 %a, i1 %b) {
  %r = and i1 %a, %b
  ret i1 %r
}
define i1 @or_i1(i1 %a, i1 %b) {
  %r = or i1 %a, %b
  ret i1 %r
}
define i1 @xor_i1(i1 %a, i1 %b) {
  %r = xor i1 %a, %b
  ret i1 %r
}
define i1 @icmp_eq_i1(i1 %a, i1 %b) {
  %r = icmp eq i1 %a, %b
  ret i1 %r
}
define i1 @icmp_ne_i1(i1 %a, i1 %b) {
  %r = icmp ne i1 %a, %b
  ret i1 %r
}
define i1 @icmp_ugt_i1(i1 %a, i1 %b) {
  %r = icmp ugt i1 %a, %b
  ret i1 %r
}
define i1 @icmp_uge_i1(i1 %a, i1 %b) {
  %r = icmp uge i1 %a, %b
  ret i1 %r
}
define i1 @icmp_ult_i1(i1 %a, i1 %b) {
  %r = icmp ult i1 %a, %b
  ret i1 %r
}
define i1 @icmp_ule_i1(i1 %a, i1 %b) {
  %r = icmp ule i1 %a, %b
  ret i1 %r
}
define i1 @icmp_sgt_i1(i1 %a, i1 %b) {
  %r = icmp sgt i1 %a, %b
  ret i1 %r
}
define i1 @icmp_sge_i1(i1 %a, i1 %b) {
  %r = icmp sge i1 %a, %b
  ret i1 %r
}
define i1 @icmp_slt_i1(i1 %a, i1 %b) {
  %r = icmp slt i1 %a, %b
  ret i1 %r
}
define i1 @icmp_sle_i1(i1 %a, i1 %b) {
  %r = icmp sle i1 %a, %b
  ret i1 %r
}
define i1 @select_i1(i1 %c, i1 %a, i1 %b) {
  %r = select i1 %c, i1 %a, i1 %b
  ret i1 %r
}

; Each operation at 33 bits. Made by examples/vectors/make.
define i33 @add_i33(i33 %a, i33 %b) {
  %r = add i33 %a, %b
  ret i33 %r
}
define i33 @sub_i33(i33 %a, i33 %b) {
  %r = sub i33 %a, %b
  ret i33 %r
}
define i33 @mul_i33(i33 %a, i33 %b) {
  %r = mul i33 %a, %b
  ret i33 %r
}
define i33 @udiv_i33(i33 %a, i33 %b) {
  %r = udiv i33 %a, %b
  ret i33 %r
}
define i33 @sdiv_i33(i33 %a, i33 %b) {
  %r = sdiv i33 %a, %b
  ret i33 %r
}
define i33 @urem_i33(i33 %a, i33 %b) {
  %r = urem i33 %a, %b
  ret i33 %r
}
define i33 @srem_i33(i33 %a, i33 %b) {
  %r = srem i33 %a, %b
  ret i33 %r
}
define i33 @shl_i33(i33 %a, i33 %b) {
  %r = shl i33 %a, %b
  ret i33 %r
}
define i33 @lshr_i33(i33 %a, i33 %b) {
  %r = lshr i33 %a, %b
  ret i33 %r
}
define i33 @ashr_i33(i33 %a, i33 %b) {
  %r = ashr i33 %a, %b
  ret i33 %r
}
define i33 @and_i33(i33 %a, i33 %b) {
  %r = and i33 %a, %b
  ret i33 %r
}
define i33 @or_i33(i33 %a, i33 %b) {
  %r = or i33 %a, %b
  ret i33 %r
}
define i33 @xor_i33(i33 %a, i33 %b) {
  %r = xor i33 %a, %b
  ret i33 %r
}
define i1 @icmp_eq_i33(i33 %a, i33 %b) {
  %r = icmp eq i33 %a, %b
  ret i1 %r
}
define i1 @icmp_ne_i33(i33 %a, i33 %b) {
  %r = icmp ne i33 %a, %b
  ret i1 %r
}
define i1 @icmp_ugt_i33(i33 %a, i33 %b) {
  %r = icmp ugt i33 %a, %b
  ret i1 %r
}
define i1 @icmp_uge_i33(i33 %a, i33 %b) {
  %r = icmp uge i33 %a, %b
  ret i1 %r
}
define i1 @icmp_ult_i33(i33 %a, i33 %b) {
  %r = icmp ult i33 %a, %b
  ret i1 %r
}
define i1 @icmp_ule_i33(i33 %a, i33 %b) {
  %r = icmp ule i33 %a, %b
  ret i1 %r
}
define i1 @icmp_sgt_i33(i33 %a, i33 %b) {
  %r = icmp sgt i33 %a, %b
  ret i1 %r
}
define i1 @icmp_sge_i33(i33 %a, i33 %b) {
  %r = icmp sge i33 %a, %b
  ret i1 %r
}
define i1 @icmp_slt_i33(i33 %a, i33 %b) {
  %r = icmp slt i33 %a, %b
  ret i1 %r
}
define i1 @icmp_sle_i33(i33 %a, i33 %b) {
  %r = icmp sle i33 %a, %b
  ret i1 %r
}
define i33 @select_i33(i1 %c, i33 %a, i33 %b) {
  %r = select i1 %c, i33 %a, i33 %b
  ret i33 %r
}

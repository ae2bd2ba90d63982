; A chain of sums that wraps past 2^32; it links to `ret i32 -5`. Returns -5.
define i32 @main() {
  %first = add i32 2147483647, 1
  %"second sum" = add i32 %first, %first
  %1 = add i32 -5, %"second sum"
  ret i32 %1
}

; Links to the same function with its sum: `ret i32 5`. Returns 5.
define i32 @main() {
  %x = add i32 2, 3
  ret i32 %x
}

define i32 @f() {
  %a = alloca i32, align 4
  %b = alloca i32, align 4
  store i32 12, ptr %a, align 4
  store i32 34, ptr %b, align 4
  %x = load i32, ptr %a, align 4
  %y = load i32, ptr %b, align 4
  store i32 %y, ptr %a, align 4
  store i32 %x, ptr %b, align 4
  %x1 = load i32, ptr %a, align 4
  %y1 = load i32, ptr %b, align 4
  %c = mul i32 %x1, 100
  %d = add i32 %c, %y1
  ret i32 %d
}

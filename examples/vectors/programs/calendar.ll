; The day of the week, 0 for Sunday, by a table of months; and which years are leap years.
@shifts = private unnamed_addr constant [12 x i8] c"\00\03\02\05\00\03\05\01\04\06\02\04", align 1

define i32 @weekday(i32 %year, i32 %month, i32 %day) {
  %early = icmp slt i32 %month, 3
  %back = zext i1 %early to i32
  %y = sub nsw i32 %year, %back
  %fourths = sdiv i32 %y, 4
  %centuries = sdiv i32 %y, 100
  %eras = sdiv i32 %y, 400
  %index = add nsw i32 %month, -1
  %at = getelementptr inbounds [12 x i8], ptr @shifts, i64 0, i32 %index
  %byte = load i8, ptr %at, align 1
  %shift = zext i8 %byte to i32
  %a = add nsw i32 %y, %fourths
  %b = sub nsw i32 %a, %centuries
  %c = add nsw i32 %b, %eras
  %d = add nsw i32 %c, %shift
  %e = add nsw i32 %d, %day
  %rest = srem i32 %e, 7
  ret i32 %rest
}

define i1 @leap(i32 %year) {
  %of.4 = and i32 %year, 3
  %fourth = icmp eq i32 %of.4, 0
  %of.100 = srem i32 %year, 100
  %century = icmp eq i32 %of.100, 0
  %of.400 = srem i32 %year, 400
  %era = icmp eq i32 %of.400, 0
  %plain = xor i1 %century, true
  %most = and i1 %fourth, %plain
  %leap = or i1 %most, %era
  ret i1 %leap
}

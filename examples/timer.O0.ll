; ModuleID = 'timer.c'
source_filename = "timer.c"
target datalayout = "e-m:e-p270:32:32-p271:32:32-p272:64:64-i64:64-f80:128-n8:16:32:64-S128"
target triple = "x86_64-pc-linux-gnu"

%struct.cue = type { i8, i64, i32 }

; Function Attrs: noinline nounwind optnone uwtable
define dso_local i32 @next_cue(%struct.cue* noundef %cues, i32 noundef %count, i64 noundef %now) #0 {
entry:
  %retval = alloca i32, align 4
  %cues.addr = alloca %struct.cue*, align 8
  %count.addr = alloca i32, align 4
  %now.addr = alloca i64, align 8
  %i = alloca i32, align 4
  store %struct.cue* %cues, %struct.cue** %cues.addr, align 8
  store i32 %count, i32* %count.addr, align 4
  store i64 %now, i64* %now.addr, align 8
  store i32 0, i32* %i, align 4
  br label %for.cond

for.cond:                                         ; preds = %for.inc, %entry
  %0 = load i32, i32* %i, align 4
  %1 = load i32, i32* %count.addr, align 4
  %cmp = icmp slt i32 %0, %1
  br i1 %cmp, label %for.body, label %for.end

for.body:                                         ; preds = %for.cond
  %2 = load %struct.cue*, %struct.cue** %cues.addr, align 8
  %3 = load i32, i32* %i, align 4
  %idxprom = sext i32 %3 to i64
  %arrayidx = getelementptr inbounds %struct.cue, %struct.cue* %2, i64 %idxprom
  %held = getelementptr inbounds %struct.cue, %struct.cue* %arrayidx, i32 0, i32 0
  %4 = load i8, i8* %held, align 8
  %tobool = icmp ne i8 %4, 0
  br i1 %tobool, label %if.end, label %land.lhs.true

land.lhs.true:                                    ; preds = %for.body
  %5 = load %struct.cue*, %struct.cue** %cues.addr, align 8
  %6 = load i32, i32* %i, align 4
  %idxprom1 = sext i32 %6 to i64
  %arrayidx2 = getelementptr inbounds %struct.cue, %struct.cue* %5, i64 %idxprom1
  %at = getelementptr inbounds %struct.cue, %struct.cue* %arrayidx2, i32 0, i32 1
  %7 = load i64, i64* %at, align 8
  %8 = load i64, i64* %now.addr, align 8
  %cmp3 = icmp sgt i64 %7, %8
  br i1 %cmp3, label %if.then, label %if.end

if.then:                                          ; preds = %land.lhs.true
  %9 = load i32, i32* %i, align 4
  store i32 %9, i32* %retval, align 4
  br label %return

if.end:                                           ; preds = %land.lhs.true, %for.body
  br label %for.inc

for.inc:                                          ; preds = %if.end
  %10 = load i32, i32* %i, align 4
  %inc = add nsw i32 %10, 1
  store i32 %inc, i32* %i, align 4
  br label %for.cond

for.end:                                          ; preds = %for.cond
  store i32 -1, i32* %retval, align 4
  br label %return

return:                                           ; preds = %for.end, %if.then
  %11 = load i32, i32* %retval, align 4
  ret i32 %11
}

; Function Attrs: noinline nounwind optnone uwtable
define dso_local i64 @remaining(%struct.cue* noundef %cues, i32 noundef %count, i64 noundef %now) #0 {
entry:
  %cues.addr = alloca %struct.cue*, align 8
  %count.addr = alloca i32, align 4
  %now.addr = alloca i64, align 8
  %next = alloca i32, align 4
  store %struct.cue* %cues, %struct.cue** %cues.addr, align 8
  store i32 %count, i32* %count.addr, align 4
  store i64 %now, i64* %now.addr, align 8
  %0 = load %struct.cue*, %struct.cue** %cues.addr, align 8
  %1 = load i32, i32* %count.addr, align 4
  %2 = load i64, i64* %now.addr, align 8
  %call = call i32 @next_cue(%struct.cue* noundef %0, i32 noundef %1, i64 noundef %2)
  store i32 %call, i32* %next, align 4
  %3 = load i32, i32* %next, align 4
  %cmp = icmp slt i32 %3, 0
  br i1 %cmp, label %cond.true, label %cond.false

cond.true:                                        ; preds = %entry
  br label %cond.end

cond.false:                                       ; preds = %entry
  %4 = load %struct.cue*, %struct.cue** %cues.addr, align 8
  %5 = load i32, i32* %next, align 4
  %idxprom = sext i32 %5 to i64
  %arrayidx = getelementptr inbounds %struct.cue, %struct.cue* %4, i64 %idxprom
  %at = getelementptr inbounds %struct.cue, %struct.cue* %arrayidx, i32 0, i32 1
  %6 = load i64, i64* %at, align 8
  %7 = load i64, i64* %now.addr, align 8
  %sub = sub nsw i64 %6, %7
  br label %cond.end

cond.end:                                         ; preds = %cond.false, %cond.true
  %cond = phi i64 [ -1, %cond.true ], [ %sub, %cond.false ]
  ret i64 %cond
}

; Function Attrs: noinline nounwind optnone uwtable
define dso_local void @put_two(i8* noundef %out, i32 noundef %number) #0 {
entry:
  %out.addr = alloca i8*, align 8
  %number.addr = alloca i32, align 4
  store i8* %out, i8** %out.addr, align 8
  store i32 %number, i32* %number.addr, align 4
  %0 = load i32, i32* %number.addr, align 4
  %div = udiv i32 %0, 10
  %add = add i32 48, %div
  %conv = trunc i32 %add to i8
  %1 = load i8*, i8** %out.addr, align 8
  %arrayidx = getelementptr inbounds i8, i8* %1, i64 0
  store i8 %conv, i8* %arrayidx, align 1
  %2 = load i32, i32* %number.addr, align 4
  %rem = urem i32 %2, 10
  %add1 = add i32 48, %rem
  %conv2 = trunc i32 %add1 to i8
  %3 = load i8*, i8** %out.addr, align 8
  %arrayidx3 = getelementptr inbounds i8, i8* %3, i64 1
  store i8 %conv2, i8* %arrayidx3, align 1
  ret void
}

; Function Attrs: noinline nounwind optnone uwtable
define dso_local void @put_remaining(i8* noundef %out, i64 noundef %left) #0 {
entry:
  %out.addr = alloca i8*, align 8
  %left.addr = alloca i64, align 8
  %seconds = alloca i64, align 8
  store i8* %out, i8** %out.addr, align 8
  store i64 %left, i64* %left.addr, align 8
  %0 = load i8*, i8** %out.addr, align 8
  %arrayidx = getelementptr inbounds i8, i8* %0, i64 2
  store i8 58, i8* %arrayidx, align 1
  %1 = load i64, i64* %left.addr, align 8
  %cmp = icmp slt i64 %1, 0
  br i1 %cmp, label %if.then, label %lor.lhs.false

lor.lhs.false:                                    ; preds = %entry
  %2 = load i64, i64* %left.addr, align 8
  %cmp1 = icmp sgt i64 %2, 5999000
  br i1 %cmp1, label %if.then, label %if.end

if.then:                                          ; preds = %lor.lhs.false, %entry
  %3 = load i8*, i8** %out.addr, align 8
  %arrayidx2 = getelementptr inbounds i8, i8* %3, i64 4
  store i8 45, i8* %arrayidx2, align 1
  %4 = load i8*, i8** %out.addr, align 8
  %arrayidx3 = getelementptr inbounds i8, i8* %4, i64 3
  store i8 45, i8* %arrayidx3, align 1
  %5 = load i8*, i8** %out.addr, align 8
  %arrayidx4 = getelementptr inbounds i8, i8* %5, i64 1
  store i8 45, i8* %arrayidx4, align 1
  %6 = load i8*, i8** %out.addr, align 8
  %arrayidx5 = getelementptr inbounds i8, i8* %6, i64 0
  store i8 45, i8* %arrayidx5, align 1
  br label %return

if.end:                                           ; preds = %lor.lhs.false
  %7 = load i64, i64* %left.addr, align 8
  %add = add nsw i64 %7, 999
  %div = sdiv i64 %add, 1000
  store i64 %div, i64* %seconds, align 8
  %8 = load i8*, i8** %out.addr, align 8
  %9 = load i64, i64* %seconds, align 8
  %div6 = sdiv i64 %9, 60
  %conv = trunc i64 %div6 to i32
  call void @put_two(i8* noundef %8, i32 noundef %conv)
  %10 = load i8*, i8** %out.addr, align 8
  %add.ptr = getelementptr inbounds i8, i8* %10, i64 3
  %11 = load i64, i64* %seconds, align 8
  %rem = srem i64 %11, 60
  %conv7 = trunc i64 %rem to i32
  call void @put_two(i8* noundef %add.ptr, i32 noundef %conv7)
  br label %return

return:                                           ; preds = %if.end, %if.then
  ret void
}

attributes #0 = { noinline nounwind optnone uwtable "frame-pointer"="all" "min-legal-vector-width"="0" "no-trapping-math"="true" "stack-protector-buffer-size"="8" "target-cpu"="x86-64" "target-features"="+cx8,+fxsr,+mmx,+sse,+sse2,+x87" "tune-cpu"="generic" }

!llvm.module.flags = !{!0, !1, !2, !3, !4}
!llvm.ident = !{!5}

!0 = !{i32 1, !"wchar_size", i32 4}
!1 = !{i32 7, !"PIC Level", i32 2}
!2 = !{i32 7, !"PIE Level", i32 2}
!3 = !{i32 7, !"uwtable", i32 1}
!4 = !{i32 7, !"frame-pointer", i32 2}
!5 = !{!"Debian clang version 14.0.6"}

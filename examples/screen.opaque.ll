; ModuleID = 'screen.c'
source_filename = "screen.c"
target datalayout = "e-m:e-p270:32:32-p271:32:32-p272:64:64-i64:64-f80:128-n8:16:32:64-S128"
target triple = "x86_64-pc-linux-gnu"

%struct.line = type { i8, [42 x i8] }
%struct.screen = type { i8, i16, i8, i32, i64, [2 x %struct.line] }

; Function Attrs: nofree noinline nosync nounwind uwtable writeonly
define dso_local i32 @put_number(ptr nocapture noundef writeonly %out, i32 noundef %number) local_unnamed_addr #0 {
entry:
  %digits = alloca [10 x i8], align 1
  call void @llvm.lifetime.start.p0(i64 10, ptr nonnull %digits) #5
  br label %do.body

do.body:                                          ; preds = %do.body, %entry
  %number.addr.0 = phi i32 [ %number, %entry ], [ %div, %do.body ]
  %count.0 = phi i32 [ 0, %entry ], [ %inc, %do.body ]
  %rem = urem i32 %number.addr.0, 10
  %0 = trunc i32 %rem to i8
  %conv = or i8 %0, 48
  %inc = add i32 %count.0, 1
  %idxprom = zext i32 %count.0 to i64
  %arrayidx = getelementptr inbounds [10 x i8], ptr %digits, i64 0, i64 %idxprom
  store i8 %conv, ptr %arrayidx, align 1, !tbaa !5
  %div = udiv i32 %number.addr.0, 10
  %1 = icmp ult i32 %number.addr.0, 10
  br i1 %1, label %for.cond.preheader, label %do.body, !llvm.loop !8

for.cond.preheader:                               ; preds = %do.body
  %cmp218.not = icmp eq i32 %inc, 0
  br i1 %cmp218.not, label %for.end, label %for.body.preheader

for.body.preheader:                               ; preds = %for.cond.preheader
  %wide.trip.count = zext i32 %inc to i64
  br label %for.body

for.body:                                         ; preds = %for.body.preheader, %for.body
  %indvars.iv = phi i64 [ 0, %for.body.preheader ], [ %indvars.iv.next, %for.body ]
  %2 = trunc i64 %indvars.iv to i32
  %sub4 = sub i32 %count.0, %2
  %idxprom5 = zext i32 %sub4 to i64
  %arrayidx6 = getelementptr inbounds [10 x i8], ptr %digits, i64 0, i64 %idxprom5
  %3 = load i8, ptr %arrayidx6, align 1, !tbaa !5
  %arrayidx8 = getelementptr inbounds i8, ptr %out, i64 %indvars.iv
  store i8 %3, ptr %arrayidx8, align 1, !tbaa !5
  %indvars.iv.next = add nuw nsw i64 %indvars.iv, 1
  %exitcond.not = icmp eq i64 %indvars.iv.next, %wide.trip.count
  br i1 %exitcond.not, label %for.end, label %for.body, !llvm.loop !10

for.end:                                          ; preds = %for.body, %for.cond.preheader
  call void @llvm.lifetime.end.p0(i64 10, ptr nonnull %digits) #5
  ret i32 %inc
}

; Function Attrs: argmemonly mustprogress nofree nosync nounwind willreturn
declare void @llvm.lifetime.start.p0(i64 immarg, ptr nocapture) #1

; Function Attrs: argmemonly mustprogress nofree nosync nounwind willreturn
declare void @llvm.lifetime.end.p0(i64 immarg, ptr nocapture) #1

; Function Attrs: nofree noinline norecurse nosync nounwind uwtable
define dso_local i32 @put_line(ptr nocapture noundef writeonly %line, ptr nocapture noundef readonly %text) local_unnamed_addr #2 {
entry:
  br label %land.rhs

land.rhs:                                         ; preds = %entry, %while.body
  %used.025 = phi i8 [ 0, %entry ], [ %inc, %while.body ]
  %idxprom = zext i8 %used.025 to i64
  %arrayidx = getelementptr inbounds i8, ptr %text, i64 %idxprom
  %0 = load i8, ptr %arrayidx, align 1, !tbaa !5
  %cmp3.not = icmp eq i8 %0, 0
  br i1 %cmp3.not, label %while.end, label %while.body

while.body:                                       ; preds = %land.rhs
  %arrayidx9 = getelementptr inbounds %struct.line, ptr %line, i64 0, i32 1, i64 %idxprom
  store i8 %0, ptr %arrayidx9, align 1, !tbaa !5
  %inc = add nuw nsw i8 %used.025, 1
  %exitcond.not = icmp eq i8 %inc, 42
  br i1 %exitcond.not, label %while.end, label %land.rhs, !llvm.loop !11

while.end:                                        ; preds = %while.body, %land.rhs
  %used.0.lcssa = phi i8 [ 42, %while.body ], [ %used.025, %land.rhs ]
  %used10 = getelementptr inbounds %struct.line, ptr %line, i64 0, i32 0
  store i8 %used.0.lcssa, ptr %used10, align 1, !tbaa !12
  %idxprom11 = zext i8 %used.0.lcssa to i64
  %arrayidx12 = getelementptr inbounds i8, ptr %text, i64 %idxprom11
  %1 = load i8, ptr %arrayidx12, align 1, !tbaa !5
  %cmp14 = icmp ne i8 %1, 0
  %conv15 = zext i1 %cmp14 to i32
  ret i32 %conv15
}

; Function Attrs: mustprogress nofree noinline norecurse nosync nounwind readonly uwtable willreturn
define dso_local zeroext i8 @light(ptr nocapture noundef readonly %screen, i8 noundef zeroext %pixel) local_unnamed_addr #3 {
entry:
  %dark = getelementptr inbounds %struct.screen, ptr %screen, i64 0, i32 0
  %0 = load i8, ptr %dark, align 8, !tbaa !14
  %tobool.not = icmp eq i8 %0, 0
  br i1 %tobool.not, label %cond.false, label %cond.end

cond.false:                                       ; preds = %entry
  %level1 = getelementptr inbounds %struct.screen, ptr %screen, i64 0, i32 1
  %1 = load i16, ptr %level1, align 2, !tbaa !19
  %conv2 = sext i16 %1 to i32
  br label %cond.end

cond.end:                                         ; preds = %entry, %cond.false
  %cond = phi i32 [ %conv2, %cond.false ], [ 0, %entry ]
  %conv3 = zext i8 %pixel to i32
  %mul = mul nsw i32 %cond, %conv3
  %mul4 = mul nsw i32 %mul, %cond
  %div = sdiv i32 %mul4, 10000
  %conv5 = trunc i32 %div to i8
  ret i8 %conv5
}

; Function Attrs: nofree noinline nosync nounwind uwtable
define dso_local i32 @carry_out(ptr nocapture noundef %screen, i32 noundef %command, i32 noundef %value) local_unnamed_addr #4 {
entry:
  switch i32 %command, label %return [
    i32 0, label %sw.bb
    i32 1, label %sw.bb2
    i32 2, label %sw.bb3
    i32 3, label %sw.bb5
    i32 4, label %sw.bb19
    i32 5, label %sw.bb33
  ]

sw.bb:                                            ; preds = %entry
  %cmp = icmp ne i32 %value, 0
  %conv1 = zext i1 %cmp to i8
  %dark = getelementptr inbounds %struct.screen, ptr %screen, i64 0, i32 0
  store i8 %conv1, ptr %dark, align 8, !tbaa !14
  br label %return

sw.bb2:                                           ; preds = %entry
  %cue = getelementptr inbounds %struct.screen, ptr %screen, i64 0, i32 3
  store i32 %value, ptr %cue, align 8, !tbaa !20
  %shown = getelementptr inbounds %struct.screen, ptr %screen, i64 0, i32 4
  %0 = load i64, ptr %shown, align 8, !tbaa !21
  %inc = add i64 %0, 1
  store i64 %inc, ptr %shown, align 8, !tbaa !21
  br label %return

sw.bb3:                                           ; preds = %entry
  %cue4 = getelementptr inbounds %struct.screen, ptr %screen, i64 0, i32 3
  %1 = load i32, ptr %cue4, align 8, !tbaa !20
  %add = add i32 %1, %value
  %call = call i32 @carry_out(ptr noundef %screen, i32 noundef 1, i32 noundef %add)
  br label %return

sw.bb5:                                           ; preds = %entry
  %level = getelementptr inbounds %struct.screen, ptr %screen, i64 0, i32 1
  %2 = load i16, ptr %level, align 2, !tbaa !19
  %conv6 = sext i16 %2 to i32
  %sub = sub nsw i32 0, %conv6
  %cmp7 = icmp sgt i32 %sub, %value
  %sub11 = sub nsw i32 100, %conv6
  %cmp12 = icmp slt i32 %sub11, %value
  %or.cond = select i1 %cmp7, i1 true, i1 %cmp12
  br i1 %or.cond, label %return, label %if.end

if.end:                                           ; preds = %sw.bb5
  %3 = trunc i32 %value to i16
  %conv17 = add i16 %2, %3
  store i16 %conv17, ptr %level, align 2, !tbaa !19
  br label %return

sw.bb19:                                          ; preds = %entry
  %4 = icmp ugt i32 %value, 1
  br i1 %4, label %return, label %if.end26

if.end26:                                         ; preds = %sw.bb19
  %idxprom = sext i32 %value to i64
  %arraydecay = getelementptr inbounds %struct.screen, ptr %screen, i64 0, i32 5, i64 %idxprom, i32 1, i64 0
  %cue27 = getelementptr inbounds %struct.screen, ptr %screen, i64 0, i32 3
  %5 = load i32, ptr %cue27, align 8, !tbaa !20
  %call28 = call i32 @put_number(ptr noundef nonnull %arraydecay, i32 noundef %5)
  %conv29 = trunc i32 %call28 to i8
  %used = getelementptr inbounds %struct.screen, ptr %screen, i64 0, i32 5, i64 %idxprom, i32 0
  store i8 %conv29, ptr %used, align 1, !tbaa !12
  br label %return

sw.bb33:                                          ; preds = %entry
  %turn = getelementptr inbounds %struct.screen, ptr %screen, i64 0, i32 2
  %6 = load i8, ptr %turn, align 4, !tbaa !22
  %conv34 = sext i8 %6 to i32
  %rem = srem i32 %value, 4
  %add35 = add nsw i32 %rem, %conv34
  %rem36 = srem i32 %add35, 4
  %conv37 = trunc i32 %rem36 to i8
  store i8 %conv37, ptr %turn, align 4, !tbaa !22
  br label %return

return:                                           ; preds = %entry, %sw.bb19, %sw.bb5, %sw.bb33, %if.end26, %if.end, %sw.bb3, %sw.bb2, %sw.bb
  %retval.0 = phi i32 [ 0, %sw.bb33 ], [ 0, %if.end26 ], [ 0, %if.end ], [ %call, %sw.bb3 ], [ 0, %sw.bb2 ], [ 0, %sw.bb ], [ 1, %sw.bb5 ], [ 1, %sw.bb19 ], [ 1, %entry ]
  ret i32 %retval.0
}

attributes #0 = { nofree noinline nosync nounwind uwtable writeonly "frame-pointer"="none" "min-legal-vector-width"="0" "no-trapping-math"="true" "stack-protector-buffer-size"="8" "target-cpu"="x86-64" "target-features"="+cx8,+fxsr,+mmx,+sse,+sse2,+x87" "tune-cpu"="generic" }
attributes #1 = { argmemonly mustprogress nofree nosync nounwind willreturn }
attributes #2 = { nofree noinline norecurse nosync nounwind uwtable "frame-pointer"="none" "min-legal-vector-width"="0" "no-trapping-math"="true" "stack-protector-buffer-size"="8" "target-cpu"="x86-64" "target-features"="+cx8,+fxsr,+mmx,+sse,+sse2,+x87" "tune-cpu"="generic" }
attributes #3 = { mustprogress nofree noinline norecurse nosync nounwind readonly uwtable willreturn "frame-pointer"="none" "min-legal-vector-width"="0" "no-trapping-math"="true" "stack-protector-buffer-size"="8" "target-cpu"="x86-64" "target-features"="+cx8,+fxsr,+mmx,+sse,+sse2,+x87" "tune-cpu"="generic" }
attributes #4 = { nofree noinline nosync nounwind uwtable "frame-pointer"="none" "min-legal-vector-width"="0" "no-trapping-math"="true" "stack-protector-buffer-size"="8" "target-cpu"="x86-64" "target-features"="+cx8,+fxsr,+mmx,+sse,+sse2,+x87" "tune-cpu"="generic" }
attributes #5 = { nounwind }

!llvm.module.flags = !{!0, !1, !2, !3}
!llvm.ident = !{!4}

!0 = !{i32 1, !"wchar_size", i32 4}
!1 = !{i32 7, !"PIC Level", i32 2}
!2 = !{i32 7, !"PIE Level", i32 2}
!3 = !{i32 7, !"uwtable", i32 1}
!4 = !{!"Debian clang version 14.0.6"}
!5 = !{!6, !6, i64 0}
!6 = !{!"omnipotent char", !7, i64 0}
!7 = !{!"Simple C/C++ TBAA"}
!8 = distinct !{!8, !9}
!9 = !{!"llvm.loop.unroll.disable"}
!10 = distinct !{!10, !9}
!11 = distinct !{!11, !9}
!12 = !{!13, !6, i64 0}
!13 = !{!"line", !6, i64 0, !6, i64 1}
!14 = !{!15, !6, i64 0}
!15 = !{!"screen", !6, i64 0, !16, i64 2, !6, i64 4, !17, i64 8, !18, i64 16, !6, i64 24}
!16 = !{!"short", !6, i64 0}
!17 = !{!"int", !6, i64 0}
!18 = !{!"long", !6, i64 0}
!19 = !{!15, !16, i64 2}
!20 = !{!15, !17, i64 8}
!21 = !{!15, !18, i64 16}
!22 = !{!15, !6, i64 4}
